"""What a message has where an instance in DER is refused, for each rule."""
from decimal import Decimal

from expected import NUMBERS, times
from faults_of_instances import LEAF_RULES, missing_expected, text_told
from page import BOM
from repository_file import COMPONENTS

CLASSES = ('universal ', 'application ', '', 'private ')
TEXT_RULES = ('BadText', 'BadLength', 'PatternFails')
# Of contents so many octets are shown, and numbers of codes have no more.
MOST_SHOWN = 8


# ---- the values before a place

def header(data, at):
    """Of the value that begins there: whether it is constructed, where its length octets and its contents begin, and its length; None: it has no such octets."""
    try:
        place = at + 1
        if data[at] & 31 == 31:
            while data[place] & 128:
                place += 1
            place += 1
        octets, length = place, data[place]
        place += 1
        if length > 127:
            count, place = length - 128, place + length - 128
            length = int.from_bytes(data[place - count:place], 'big')
        return bool(data[at] & 32), octets, place, length
    except IndexError:
        return None


def values_to(data, at):
    """The ends of the values that are open at a place, the outermost first; where the value begins whose octets or contents are there, and its header, which is None where the data end before it does."""
    ends, place = [], 0
    while True:
        while ends and ends[-1] <= place:
            ends.pop()
        found = header(data, place)
        if found is None or at <= found[1] or at == found[2] and not found[0]:
            return ends, place, found
        is_constructed, _, contents, length = found
        if is_constructed:
            ends.append(contents + length)
        place = contents if is_constructed else contents + length


# ---- what was expected

def octets_expected(types, fault, data):
    """Lines that say what the message has at a place of DER."""
    at = int(fault.where)
    if at == 0 and data.removeprefix(BOM).lstrip()[:1] == b'<':
        return ['DER; the file may be in XML, which `show` without --der reads']
    if fault.rule == 'Trailing':
        return ['the end of the file']
    told = overrun_told(data, at) if fault.rule == 'Overrun' else []
    if told or types is None:
        return told
    if fault.rule == 'Missing':
        return missing_expected(types, fault)
    if fault.rule == 'Truncated' and at == 0:
        return ['a document; the file is empty']
    entry = types.at(fault.path)
    if fault.rule in ('UnexpectedTag', 'BadTagOctets'):
        told = tag_told(types, entry, data[at]) if fault.rule == 'UnexpectedTag' and data[at] & 31 < 31 else []
        return [*tags_of_octets(types, fault.path, entry), *told]
    if fault.rule in ('TooMany', 'TooFew'):
        return items_expected(types, fault)
    if entry is None:
        return []
    return contents_expected(types, fault, entry, data) if fault.rule in LEAF_RULES or fault.rule == 'BadContents' else [types.described(entry)]


def overrun_told(data, at):
    """How many octets are left of the value round the place."""
    ends, place, found = values_to(data, at)
    if not ends or at > ends[-1]:
        return []
    left = ends[-1] - at
    if found and at == found[1] and found[2] <= ends[-1]:
        left -= found[2] - at
        return [f'a length of at most {left}, since the value round it has {count_of(left)} left; here stands {found[3]}']
    return [f'{"identifier" if at == place else "length"} octets that end with the value round them, which has {count_of(left)} left']


def count_of(octets):
    return '1 octet' if octets == 1 else f'{octets or "no"} octets'


def contents_expected(types, fault, entry, data):
    """What the contents of a leaf have to be, and what they are."""
    at = int(fault.where)
    told, (_, _, found) = [types.described(entry)], values_to(data, at)
    octets = data[at:at + found[3]] if found else b''
    if found is None or len(octets) < found[3]:
        return told
    if fault.rule == 'NotACode':
        return told + [f'here stands {int.from_bytes(octets, "big", signed=True)}'] if len(octets) <= MOST_SHOWN else told
    if fault.rule == 'BadContents' and entry.kind in ('CodeSet', 'Indicator', *NUMBERS):
        more = f', and {len(octets) - MOST_SHOWN} more' if len(octets) > MOST_SHOWN else ''
        return [*told, f'the octets are {octets[:MOST_SHOWN].hex(" ").upper()}{more}' if octets else 'there are no octets']
    if fault.rule in ('Digits', 'OutOfRange'):
        number = f'{Decimal(octets[1:].decode() or 0):f}'
        return [*told, f'here stands {number}', *text_told(fault.rule, number, entry)]
    if fault.rule in TEXT_RULES and entry.kind not in ('Binary', *NUMBERS):
        told += text_told(fault.rule, octets.decode(errors='replace'), entry)
    return told


def items_expected(types, fault):
    """How many items the list has."""
    above, _, tag = fault.path.rpartition('/')
    owner, tag = types.at(above), tag.partition('[')[0]
    element = next((it for it in owner.elements if it.tag == tag), None) if owner else None
    if element is None:
        return []
    return [f'<{tag}> at most {times(element.most)}' if fault.rule == 'TooMany' else f'<{tag}> at least {times(element.least)}']


def is_constructed(types, element):
    """Whether what stands under the tag of an element holds other values."""
    entry = types.entries.get(element.reference)
    return element.most != 1 or entry is not None and (entry.kind in COMPONENTS or bool(entry.currency))


def tag_told(types, entry, octet):
    """The tag that stands there, and why it may not, where the value has it at all."""
    number, form = octet & 31, 'constructed' if octet & 32 else 'primitive'
    told = f'here stands [{CLASSES[octet >> 6]}{number}], {form}'
    if entry is None or octet >> 6 != 2 or number >= len(entry.elements):
        return [told]
    element = entry.elements[number]
    if is_constructed(types, element) != bool(octet & 32):
        return [told, f'[{number}] {element.tag} is {"primitive" if octet & 32 else "constructed"}']
    if entry.kind == 'ChoiceComponent':
        return [told, 'one alternative alone']
    return [told, f'[{number}] {element.tag} once, before what has a greater number']


def tags_of_octets(types, path, entry):
    """The tags of DER that a value has; of a list, whose path ends in no number, those of an item are not told."""
    if path.count('/') < 2:
        return [f'Document: [0] {types.message.tag}' if path != '/' else 'Document: [universal 16]']
    if entry is None or not entry.elements or not path.endswith(']'):
        return [types.described(entry)] if entry else []
    return [f'{entry.name}: {", ".join(f"[{number}] {it.tag}" for number, it in enumerate(entry.elements))}']
