"""What a message has where an instance is refused, and which part of the line breaks the rule, for each rule."""
import re

from expected import FORMS, NUMBERS, bounds_of, closest, date_fault, digits_in, may_come, quoted
from faults_of_markup import bad_declaration, bad_octet, first_twice, is_closer, markup_expected
from page import LINE_END, WIDTH, is_visible, sign
from pattern_match import how_far
from repository_file import MOST_DIGITS, NAMESPACE, XSI
from rule_sentences import MARKUP
from xml_tree import WHITE

LEAF_RULES = ('BadText', 'BadLength', 'PatternFails', 'NotACode', 'Digits', 'OutOfRange')
TAG_RULES = ('UnknownElement', 'OutOfOrder', 'TooMany', 'SecondAlternative', 'TextInComplex')
PASSED_OVER = ((XSI, 'schemaLocation'), (XSI, 'noNamespaceSchemaLocation'))

# as far as a text may go on to be a number
NUMBER = re.compile(r'[ \t\r\n]*[+-]?[0-9]*\.?[0-9]*')
DOCUMENT = re.compile(rb'<(?:[A-Za-z_][\w.-]*:)?Document[\s>]')


# ---- the part that breaks the rule

def named(place, name):
    """The last attribute of a name in the tag."""
    return next((it for it in reversed(place.attributes()) if it.name == name), None)


def first_unknown(place):
    """The first attribute that no element has; of several that one type has alone, as Ccy, the others come first."""
    unknown = [it for it, *name in place.named_attributes() if tuple(name) not in PASSED_OVER]
    return next((it for it in unknown if it.name != 'Ccy'), unknown[0] if unknown else None)


def attribute_at_fault(fault, place):
    if fault.path and fault.path.endswith('@Ccy') and fault.rule in LEAF_RULES:
        return named(place, 'Ccy')
    if fault.rule == 'UnknownAttribute':
        return first_unknown(place) if place.follows else None
    by_rule = {'DuplicateAttribute': first_twice, 'BadPrefix': bad_declaration}
    return by_rule[fault.rule](place) if fault.rule in by_rule else None


def parts_of(fault, place):
    """The octets from and to of each part that is marked beside the place."""
    at = int(fault.where)
    token = (at, at + len(place.token))
    attribute = attribute_at_fault(fault, place)
    if attribute:
        is_below = LINE_END.search(place.token, 0, attribute.start)
        return [token if is_below else (at + attribute.start, at + attribute.end)]
    if fault.rule == 'BadUtf8':
        return [(bad_octet(place, at), bad_octet(place, at) + 1)]
    if is_closer(place, at):
        return [(at - 2, at + 1)]
    if fault.rule in LEAF_RULES and place.open:
        return [(place.text_start(), at), token]
    return [token]


# ---- what was expected

def open_entry(types, fault):
    """The type of the element that is open at the fault."""
    return types.at(fault.path) if fault.path and fault.path.count('/') > 1 else None


def last_part(path):
    return path.rpartition('/')[2]


def foreign_tag(types, fault, place):
    """The namespace of a tag that is known in that of the message."""
    expanded = place.expanded() if fault.rule == 'UnknownElement' else None
    if expanded is None or expanded[0] == NAMESPACE + types.message.identifier:
        return []
    return [f'<{place.tag_name()}> is in {"the namespace " + expanded[0] if expanded[0] else "no namespace"}, and not in {NAMESPACE}{types.message.identifier}']


def meant_tag(entry, place):
    tag = closest(place.tag_name().rpartition(':')[2], [it.tag for it in entry.elements])
    return [f'did you mean <{tag}>?'] if tag and tag != place.tag_name().rpartition(':')[2] else []


def unseen(rule, place):
    """The text, or the first character of an unknown tag, that is not one of visible ASCII."""
    text = place.token_text()
    if rule == 'TextInComplex' and len(text) == 1 and not is_visible(text):
        return [f'here stands {sign(text)}']
    found = [it for it in place.tag_name().rpartition(':')[2] if not is_visible(it)] if rule == 'UnknownElement' else []
    return [f'the tag has {sign(found[0])}'] if found else []


def tags_expected(types, fault, place):
    entry = open_entry(types, fault)
    if entry is None:
        return [f'<{types.message.tag}> alone stands in Document', *unseen(fault.rule, place), *foreign_tag(types, fault, place)]
    if entry.kind == 'ExternalSchema':
        return [types.described(entry)]
    depth = fault.path.count('/')
    came = place.open[depth - 1].children if len(place.open) >= depth else []
    tags, may_end = may_come(entry, came)
    told = [f'<{tag}>' for tag in tags] + ([f'the end of {last_part(fault.path)}'] if may_end else [])
    lines = [f'{entry.name}; here may come {", ".join(told) or "nothing"}', *unseen(fault.rule, place)]
    if fault.rule == 'UnknownElement':
        return lines + (foreign_tag(types, fault, place) or meant_tag(entry, place))
    return lines + order_expected(fault, entry, came, place.tag_name().rpartition(':')[2])


def order_expected(fault, entry, came, tag):
    """How often the tag may come, or before which of those that came it stands."""
    slots = {it.tag: number for number, it in enumerate(entry.elements)}
    if tag not in slots:
        return []
    if fault.rule == 'TooMany':
        return [f'<{tag}> {text}' for text in bounds_of(entry.elements[slots[tag]])[-1:]]
    if fault.rule == 'OutOfOrder':
        later = next((it for it in came if slots.get(it, -1) > slots[tag]), None)
        return [f'<{tag}> before <{later}>'] if later else []
    return []


def missing_expected(types, fault):
    above, _, tag = fault.path.rpartition('/')
    if tag.endswith(']'):
        entry = types.at(fault.path)
        return [f'the number of {tag}: {types.texts(entry)}'] if entry else []
    if tag == '*':
        entry = types.at(above)
        return [types.described(entry)] if entry else []
    if fault.path.count('/') < 3:
        return [f'<{tag}>']
    entry = types.at(fault.path)
    if tag == '@Ccy':
        return [types.described(entry)]
    told = [f'<{tag}> of {types.described(entry)}'] if entry else [f'<{tag}>']
    element = next((it for it in types.at(above).elements if it.tag == tag and it.least > 1), None)
    return told + [f'<{tag}> {text}' for text in bounds_of(element)[:1]] if element else told


def root_expected(types, fault, place):
    told = [f'<Document xmlns="{NAMESPACE}{types.message.identifier}">']
    if place.token:
        told.append(f'the root is {place.token_text()[:WIDTH]}')
    space, tag = place.expanded() or ('', '')
    if tag == 'AppHdr' or tag != 'Document' and DOCUMENT.search(place.data, int(fault.where)):
        return [*told, 'hand in its `Document` alone: headers and envelopes round it are not read']
    other = space[len(NAMESPACE):] if space.startswith(NAMESPACE) else types.message.identifier
    if other != types.message.identifier:
        told.append(f'that is the message {other}, which the repository {"has too" if other in types.identifiers else "does not have"}')
    return told


def text_told(rule, text, entry):
    """What the text has that the rule counts."""
    if rule == 'BadText' and not text.strip(WHITE):
        return ['there is no text']
    if rule == 'BadText' and entry.kind in NUMBERS:
        return number_told(text.rstrip(WHITE))
    if rule == 'BadText' and entry.kind in FORMS:
        told = date_fault(entry.kind, text.strip(WHITE))
        return [told] if told else []
    if rule == 'PatternFails':
        return pattern_told(entry.facets['pattern'], text.strip(WHITE) if entry.kind in FORMS else text)
    if rule == 'BadLength':
        return [f'the text has {len(text)} character{"" if len(text) == 1 else "s"}']
    if rule == 'Digits':
        count, behind = digits_in(text.strip(WHITE))
        is_beyond = 'totalDigits' not in entry.facets and max(count, behind) > MOST_DIGITS
        return [*([f'the type has no totalDigits, and of any number {MOST_DIGITS} digits are taken'] if is_beyond else []),
                f'the number has {count} digit{"" if count == 1 else "s"}, {behind} behind the point']
    return []


def number_told(text):
    """How far the text is a number."""
    far = NUMBER.match(text).end()
    if far == len(text):
        return ['there is no digit']
    return [far_told(text, far) if text[:far].strip(WHITE) else f'no number begins with {sign(text[far])}']


def far_told(text, far):
    return f'the text fits up to its character {far}; then comes {sign(text[far])}'


def pattern_told(pattern, text):
    """How far the text goes with the pattern."""
    far = how_far(pattern, text)
    if far is None:
        return []
    if far == len(text):
        return ['the text fits as far as it goes, and more has to follow']
    return [far_told(text, far) if far else f'no text that fits begins with {sign(text[0])}']


def here_stands(attribute):
    return [f'here stands {attribute.name}="{attribute.value[:WIDTH]}"'] if attribute else []


def leaf_expected(types, fault, place):
    entry = types.at(fault.path)
    if entry is None:
        return []
    attribute = attribute_at_fault(fault, place)
    told = [types.described(entry), *here_stands(attribute)]
    is_open = len(place.open) == fault.path.count('/')
    if fault.rule == 'ElementInSimple':
        return told + ([f'did you mean </{place.tag_name()}>?'] if is_open and place.tag_name() == place.open_name() else [])
    if not (attribute or is_open):
        return told
    text = attribute.text() if attribute else place.text()
    if entry.kind != 'Binary':
        told += text_told(fault.rule, text, entry)
    code = closest(text, types.codes_of(entry)) if fault.rule == 'NotACode' else None
    return told + [f'did you mean {quoted(code)}?'] if code else told


def attribute_expected(types, fault, place):
    entry = open_entry(types, fault)
    told = ['Ccy alone'] if entry is not None and entry.currency else ['no attribute']
    return told + here_stands(first_unknown(place))


# ---- by the rule

def expected(types, fault, place):
    """Lines that say what the message has there; none where its types, or what stands before the place, could not be read."""
    if fault.rule in MARKUP:
        return markup_expected(fault, place)
    if types is None or not place.follows:
        return []
    if fault.rule == 'WrongRoot':
        return root_expected(types, fault, place)
    if fault.rule == 'Missing':
        return missing_expected(types, fault)
    if fault.rule in TAG_RULES:
        return tags_expected(types, fault, place)
    if fault.rule == 'MissingAttribute':
        return [f'Ccy="..", {types.described(types.at(fault.path))}']
    if fault.rule == 'UnknownAttribute':
        return attribute_expected(types, fault, place)
    return leaf_expected(types, fault, place) if fault.rule in (*LEAF_RULES, 'ElementInSimple') else []
