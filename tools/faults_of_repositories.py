"""What a repository, its codes or a message should have where they are refused, and which part breaks the rule."""
import re
from decimal import Decimal

from expected import closest, digits_in
from faults_of_instances import parts_of
from faults_of_markup import markup_expected
from pattern_language import PatternFault, read_pattern
from place import Place
from repository_file import COMPONENTS, KINDS, MOST_CHARACTERS, MOST_CODES, MOST_DIGITS, MOST_ELEMENTS, MOST_OBJECTS, NAME, REPOSITORY, XMI, XSI, texts_of
from rule_sentences import MARKUP
from word_faults import SCHEMA

LENGTHS = ('minLength', 'maxLength', 'length')
DIGITS = ('totalDigits', 'fractionDigits', 'minInclusive', 'maxInclusive', 'minExclusive', 'maxExclusive')
# the numbers that an entry of a kind is asked for; elements and blocks are asked for the others
FACETS = {**dict.fromkeys(('Text', 'CodeSet', 'IdentifierSet', 'Binary'), LENGTHS), **dict.fromkeys(('Amount', 'Rate', 'Quantity'), DIGITS)}
OCCURRENCES = ('minOccurs', 'maxOccurs')
NO_MAXIMUM = ('-1', '*', 'unbounded')
BOUND = re.compile(r'[+-]?(?:[0-9]+\.?[0-9]*|\.[0-9]+)')
MOST_COUNT, MOST_COUNT_DIGITS = 2 ** 32 - 1, 10
DOCUMENT = 'Document'
NEEDED = (('xmi:id', XMI, 'id'), ('xsi:type', XSI, 'type'), ('name', '', 'name'))
# Of a way round, so many steps are told, and of a long text so many characters.
STEPS = 4
SHOWN = 80
# Facets of which an entry has one at most, and pairs in order, with whether they may be equal.
BOTH = [('minInclusive', 'minExclusive'), ('maxInclusive', 'maxExclusive')]
ORDERED = [('minLength', 'maxLength', True), ('minLength', 'length', True), ('length', 'maxLength', True), ('fractionDigits', 'totalDigits', True),
           ('minInclusive', 'maxInclusive', True), ('minInclusive', 'maxExclusive', False), ('minExclusive', 'maxInclusive', False), ('minExclusive', 'maxExclusive', False)]


# ---- the file

def bound_wanted(text):
    """What a bound should be; None: it is so."""
    if not BOUND.fullmatch(text):
        return 'a number'
    count, behind = digits_in(text)
    if count > MOST_DIGITS:
        return f'a number of at most {MOST_DIGITS} digits'
    return f'a number of at most {MOST_DIGITS} digits behind the point' if behind > MOST_DIGITS else None


def number_wanted(name, text):
    """What an attribute should be that has to be a number; None: it is so."""
    if name in DIGITS[2:]:
        wanted = bound_wanted(text)
    elif name == 'maxOccurs' and text in NO_MAXIMUM:
        wanted = None
    elif not re.fullmatch('[0-9]+', text):
        wanted = 'a number, or unbounded' if name == 'maxOccurs' else 'a number'
    elif len(text) > MOST_COUNT_DIGITS:
        wanted = f'a number of at most {MOST_COUNT_DIGITS} digits'
    else:
        wanted = f'a number that is at most {MOST_COUNT:,}' if int(text) > MOST_COUNT else None
    return wanted


def first_no_number(place, named):
    """The first attribute that the entry, the element or the block is asked for and that is no number, and what it should be."""
    kind = next((it.text() for it, space, local in named if (space, local) == (XSI, 'type')), '')
    is_entry = place.tag_name().rpartition(':')[2] == 'topLevelDictionaryEntry'
    asked = FACETS.get(kind.partition(':')[2] or kind, ()) if is_entry else OCCURRENCES
    found = ((it, number_wanted(local, it.text())) for it, space, local in named if space == '' and local in asked)
    return next(((it, wanted) for it, wanted in found if wanted), None)


def attribute_fault(rule, place):
    """The attribute that breaks the rule, and what it should be; None: none by itself."""
    named = place.named_attributes() if place.follows else []
    if rule == 'L3':
        return next(((it, 'another id') for it, space, local in named if (space, local) == (XMI, 'id')), None)
    return first_no_number(place, named) if rule == 'L4' else None


def missing_told(place):
    """The attributes that an entry lacks, and those of their local names in other namespaces."""
    if not place.follows:
        return []
    lines, named = [], place.named_attributes()
    for name, wanted, local in NEEDED:
        if (wanted, local) not in [found[1:] for found in named]:
            lines.append(f'the attribute {name}')
            lines += [f'{it.name} is in {space_told(space)}, and not in {space_told(wanted)}' for it, space, other in named if other == local]
    return lines


def space_told(space):
    return f'the namespace {space}' if space else 'no namespace'


def file_fault(data, fault):
    """The parts that are marked, and what was expected."""
    at = int(fault.where)
    place = Place(data, at)
    if fault.rule in MARKUP:
        return parts_of(fault, place), markup_expected(fault, place)
    if fault.rule == 'L2':
        return parts_of(fault, place), [f'Repository in {REPOSITORY}', *([SCHEMA] if place.is_schema() else [])]
    found = attribute_fault(fault.rule, place)
    if found:
        attribute, wanted = found
        return [(at + attribute.start, at + attribute.end)], [wanted, f'here stands {attribute.name}="{attribute.value}"']
    return parts_of(fault, place), missing_told(place) if fault.rule == 'L5' else []


# ---- a message

def element_fault(rule, element, entries, before):
    """What an element should be, where it breaks the rule; None: it does not."""
    if rule == 'M3' and element.reference is not None and element.reference not in entries:
        return f'an entry with the id {element.reference}'
    if rule == 'M5' and element.references != 1:
        return f'one of simpleType, complexType and type; here stand{"s" if element.references == 0 else ""} {element.references or "none"}'
    if rule == 'M6' and not NAME.fullmatch(element.tag):
        return f'an ASCII name in the place of `{element.tag}`'
    if rule == 'M7' and element.tag in before:
        return f'<{element.tag}> once'
    if rule == 'M8' and element.most is not None and (element.most == 0 or element.least > element.most):
        return f'a maximum of <{element.tag}> that is at least {max(1, element.least)}; here stands {element.most}'
    if rule == 'M9' and element.least == 0:
        return f'<{element.tag}> at least once'
    return None


def pattern_fault(text):
    try:
        read_pattern(text)
    except PatternFault as fault:
        shown = text if len(text) <= SHOWN else text[:SHOWN - 1] + '…'
        return [f'a pattern; of `{shown}`: {fault}']
    return []


def message_fault(rule, line, elements, entry, entries):
    """The line of the element at fault, else that of its owner, and what was expected."""
    tags = set()
    for element in elements:
        told = element_fault(rule, element, entries, tags)
        if told:
            return element.line, [told]
        tags.add(element.tag)
    if rule == 'M17':
        return line, size_expected(elements, entry, entries)
    if rule == 'M13' and entry is not None and 'pattern' in entry.facets:
        return line, pattern_fault(entry.facets['pattern'])
    if rule == 'M3' and entry is not None and entry.currency is not None:
        return line, [f'an entry with the id {entry.currency}']
    return line, owner_expected(rule, entry, entries)


def owner_expected(rule, entry, entries):
    """What an entry itself should have."""
    if entry is None:
        return []
    if rule == 'M4' and entry.currency in entries:
        return [f'a Text, CodeSet or IdentifierSet; {entries[entry.currency].name} is of the kind {entries[entry.currency].kind}']
    if rule == 'M6':
        return [f'an ASCII name in the place of `{entry.name}`']
    if rule == 'M10':
        return ['an alternative']
    if rule == 'M11':
        return [f'an end: {way_round(entry, entries)}']
    if rule == 'M12':
        return facets_expected(entry.facets)
    if rule == 'M14':
        return code_expected(texts_of(entries, next(key for key, it in entries.items() if it is entry)))
    if rule == 'M15' and entry.kind not in KINDS:
        meant = closest(entry.kind, KINDS)
        return [f'another kind than {entry.kind}', *([f'did you mean {meant}?'] if meant else [])]
    if rule == 'M15':
        return ['no pattern']
    return []


def reached(message, entries):
    """The entries that the message reaches."""
    left, found = [it.reference for it in message.blocks], {}
    while left:
        key = left.pop()
        entry = entries.get(key)
        if entry is not None and key not in found:
            found[key] = entry
            left += [it.reference for it in entry.elements] + ([entry.currency] if entry.kind == 'Amount' else [])
    return [it for key, it in entries.items() if key in found]


def name_expected(owner, message, entries):
    """Which other name a type or the message may not have: those of Document, of the message, of types, and that of an amount's number."""
    types = reached(message, entries)
    lines = [str(it.line) for it in types if it.name == owner.name]
    if len(lines) > 1:
        return [f'one type of the message with the name {owner.name}; it stands in the lines {", ".join(lines)}']
    if owner.name == DOCUMENT:
        return [f'another name than {DOCUMENT}, which the root has']
    for other in [it for it in [*types, message] if it is not owner]:
        what = 'message' if other is message else 'type'
        if owner.name == other.name:
            return [f'another name than {owner.name}, which the {what} in the line {other.line} has']
        if owner.name == number_name(other):
            return [f'another name than {owner.name}, which the number of {other.name} in the line {other.line} has']
        if number_name(owner) == other.name:
            return [f'another name than {owner.name}, whose number has the name {other.name}, as the {what} in the line {other.line} has']
    return []


def number_name(owner):
    """The name that the number of an Amount with currency has in a schema; None: there is none."""
    return f'{owner.name}_SimpleType' if getattr(owner, 'kind', None) == 'Amount' and owner.currency else None


def facets_expected(facets):
    """The first facet that is out of bounds, or that another one contradicts."""
    number = {name: Decimal(facets[name]) for name in LENGTHS + DIGITS if name in facets}
    if not 1 <= number.get('totalDigits', 1) <= MOST_DIGITS:
        return [f'totalDigits of 1 to {MOST_DIGITS}; here stands {facets["totalDigits"]}']
    if 'totalDigits' not in number and number.get('fractionDigits', 0) > MOST_DIGITS:
        return [f'fractionDigits of at most {MOST_DIGITS}; here stands {facets["fractionDigits"]}']
    for one, other in BOTH:
        if one in number and other in number:
            return [f'{one} or {other}, and not both']
    for least, most, may_be_equal in ORDERED:
        if least in number and most in number and not (number[least] < number[most] or may_be_equal and number[least] == number[most]):
            return [f'{least} {"of at most" if may_be_equal else "below"} {most}, which is {facets[most]}; here stands {facets[least]}']
    return []


def code_expected(texts):
    """Which code of a set has no text, or one that an earlier one has."""
    for number, text in enumerate(texts, 1):
        if not text or text in texts[:number - 1]:
            return [f'another text of the code {number}; it has `{text}`, as an earlier one' if text else f'a text of the code {number}']
    return []


def finite_of(entries):
    """The ids of the types of which there is a finite instance: all but those that have to hold one of which there is none."""
    finite = {key for key, it in entries.items() if it.kind not in COMPONENTS}
    users, wanted = {}, {}
    for key, entry in entries.items():
        if key not in finite:
            needed = {it.reference for it in entry.elements if it.least > 0 or entry.kind == 'ChoiceComponent'}
            wanted[key] = min(len(needed), 1) if entry.kind == 'ChoiceComponent' else len(needed)
            for reference in needed:
                users.setdefault(reference, []).append(key)
    left = [*finite, *(key for key, count in wanted.items() if count == 0)]
    finite.update(left)
    while left:
        for user in users.get(left.pop(), []):
            wanted[user] -= 1
            if wanted[user] == 0:
                finite.add(user)
                left.append(user)
    return finite


def way_round(entry, entries):
    """What an entry without a finite instance has to hold, and that again, up to the first that comes twice."""
    finite, seen, steps = finite_of(entries), set(), []
    while entry.name not in seen:
        seen.add(entry.name)
        element = next(it for it in entry.elements if it.reference not in finite and (it.least > 0 or entry.kind == 'ChoiceComponent'))
        inner = entries[element.reference]
        steps.append(f'{entry.name} has to hold <{element.tag}>, which is of {inner.name}')
        entry = inner
    return '; '.join(steps[:STEPS]) + (f'; and {len(steps) - STEPS} more' if len(steps) > STEPS else '')


def size_expected(elements, entry, entries):
    """Which number of a message or an entry is too large."""
    if len(elements) > MOST_ELEMENTS:
        return [f'at most {MOST_ELEMENTS:,} elements; here stand {len(elements):,}']
    if entry is None:
        return [f'at most {MOST_OBJECTS:,} objects that the message reaches']
    if len(entry.facets.get('pattern', '')) > MOST_CHARACTERS:
        return [f'a pattern of at most {MOST_CHARACTERS:,} characters; it has {len(entry.facets["pattern"]):,}']
    if len(entry.codes) > MOST_CODES:
        return [f'at most {MOST_CODES:,} codes; here stand {len(entry.codes):,}']
    texts = texts_of(entries, next(key for key, it in entries.items() if it is entry))
    for number, text in enumerate(texts, 1):
        if text and len(text) > MOST_CHARACTERS:
            return [f'at most {MOST_CHARACTERS:,} characters in the code {number}; it has {len(text):,}']
    return []
