"""What XML has where an instance or a repository breaks a rule of it, for each of these rules."""
import re

from page import BOM, WIDTH, spot_of
from place import MOST_TAG, NAME, TOKEN, XML

NO_CHARACTER = re.compile('[^\t\n\r\x20-\ud7ff\ue000-\ufffd\U00010000-\U0010ffff]')
XMLNS = 'http://www.w3.org/2000/xmlns/'
# by what other encodings begin, with a byte order mark or `<` (XML 1.0, appendix F)
ENCODINGS = ((b'\xff\xfe\0\0', 'UTF-32'), (b'\0\0\xfe\xff', 'UTF-32'), (b'<\0\0\0', 'UTF-32'), (b'\0\0\0<', 'UTF-32'),
             (b'\xff\xfe', 'UTF-16'), (b'\xfe\xff', 'UTF-16'), (b'<\0', 'UTF-16'), (b'\0<', 'UTF-16'))
# attributes one behind the other, and one whose value has a `<` before its last quote
ATTRIBUTE = re.compile(rb'\s*([^\s=/<>"\']+)\s*=\s*("[^"<]*"|\'[^\'<]*\')')
CUT_VALUE = re.compile(rb'\s*([^\s=/<>"\']+)\s*=\s*("[^"<]*|\'[^\'<]*)(?:<|\Z)')
# what ends a comment, a CDATA section and an instruction
CLOSERS = {b'<!--': b'-->', b'<![CDATA[': b']]>', b'<?': b'?>'}


# ---- the part that breaks the rule

def twice(place):
    """The first attribute or declaration of a tag whose name came before, behind the one that had it; None: there is none. Names are spelled otherwise where two prefixes are bound to one namespace."""
    names = {}
    named = place.named_attributes() if place.follows else []
    expanded = {it: (space, local) for it, space, local in named if space is not None}
    for it in place.attributes():
        name = expanded.get(it, it.name)
        if name in names:
            return names[name], it
        names[name] = it
    return None


def first_twice(place):
    return (twice(place) or [None])[-1]


def bad_declaration(place):
    """The first declaration that binds what may not be bound so (Namespaces in XML 1.0, sections 3 and 5)."""
    for it in place.attributes():
        prefix, space = it.name.partition(':')[2], it.text()
        if it.is_declaration() and (prefix == 'xmlns' or (prefix == 'xml') != (space == XML) or space == XMLNS or prefix and not space):
            return it
    return None


def is_closer(place, at):
    """Whether the place is at the end of `]]>`."""
    return place.token == b'>' and place.data[:at].endswith(b']]')


def bad_octet(place, at):
    """Where behind a place the octets are no more UTF-8."""
    try:
        place.data[at:].decode()
    except UnicodeDecodeError as error:
        return at + error.start
    return at


# ---- what was expected

def utf8_expected(place, at):
    octet = place.data[bad_octet(place, at):][:1]
    character = octet.decode('cp1252', 'replace')
    return ['UTF-8' + (f'; the octet {octet.hex()} is {character} in Windows-1252' if character.isprintable() else '')]


def open_value(place, at):
    """The name of the attribute of a tag whose value goes on over the end of the tag or over another attribute, as where its last quote is missing; None: there is none."""
    place_at = at + len(NAME.match(place.token).group())
    found = last = ATTRIBUTE.match(place.data, place_at)
    while found:
        last, found = found, ATTRIBUTE.match(place.data, found.end())
    cut = CUT_VALUE.match(place.data, last.end() if last else place_at)
    if cut:
        return cut[1].decode(errors='replace') if b'>' in cut[2] else None
    is_over = last and last[2][:-1].rstrip().endswith(b'=') and place.data[last.end():last.end() + 1] not in (b' ', b'>', b'/')
    return last[1].decode(errors='replace') if is_over else None


def markup_told(place, at):
    """What XML has where this is no markup."""
    token = place.token
    if re.match(rb'<\?xml\s', token):
        if place.data[:at].removeprefix(BOM):
            return ['the declaration <?xml ..?> at the very start of the file, before anything else']
        return ['<?xml version="1.0" encoding="UTF-8"?>, the one version and encoding that is read']
    if token.startswith(b'<!--'):
        return ['a comment in which no two hyphens stand together, and none at its end']
    if is_closer(place, at):
        return [']]&gt; for ]]> in a text']
    if token.startswith(b'<?'):
        return ['an instruction as <?name text?>, whose name is not xml']
    if re.match(rb'<[A-Za-z_:/\x80-\xff]', token) and place.is_beyond_limit(at):
        return [f'a tag of at most {MOST_TAG:,} bytes']
    if token.startswith(b'</'):
        return ['an end tag as </Name>']
    if not re.match(rb'<[A-Za-z_:\x80-\xff]', token):
        return ['the sign < itself is &lt;'] if token.startswith(b'<') else []
    name = open_value(place, at)
    if name:
        return [f'the quote that ends the value of {name}; in a value < is &lt;']
    if not token.endswith(b'>'):
        return ['the > of this tag before the next <; the sign < itself is &lt;']
    return ['attributes as name="value", each behind a space; in a value < is &lt;']


def twice_told(place, first, second):
    """Which of two attributes is too many, or why two that are spelled otherwise have one name."""
    if first.name == second.name:
        return [f'{second.name} once']
    space, local = next((space, local) for it, space, local in place.named_attributes() if it == second)
    return [f'one of them: {first.name} and {second.name} are one name, {local} of {space}']


def prefix_told(place):
    bad, prefixes = bad_declaration(place), place.prefixes() if place.follows else []
    if bad or not prefixes:
        return [f'no {bad.name}="{bad.value}"'] if bad else []
    return ['another prefix than xmlns'] if 'xmlns' in prefixes else [f'a declaration of {", ".join(prefixes)}']


def cut_token(place):
    """The octet where a token begins that the end of the file cuts off, and what ends such a token, but for a tag; None: there is none."""
    at = place.data.find(b'<', place.tag_end())
    while at >= 0:
        opener = next((it for it in CLOSERS if place.data.startswith(it, at)), None)
        token = TOKEN.match(place.data, at).group()
        end = place.data.find(CLOSERS[opener], at + len(opener)) if opener else at + len(token) if token.endswith(b'>') else -1
        if end < 0:
            return at, CLOSERS[opener].decode() if opener else ''
        at = place.data.find(b'<', end)
    return None


def end_expected(fault, place):
    """The end of the element that is open, and where it begins; of a token that is cut off its rest."""
    if not place.data:
        return ['a document; the file is empty']
    cut = cut_token(place) if fault.rule == 'Truncated' else None
    if cut and cut[1]:
        spot = spot_of(place.data, cut[0], [])
        return [f'{cut[1]}, the end of what begins at {spot.line}:{spot.column}']
    if cut:
        return [f'the rest of {place.data[cut[0]:][:WIDTH].decode(errors="replace")}']
    if not place.open or fault.path == '/':
        return []
    return [f'</{place.open_name()}>, the end of what begins at {place.open[-1].line}:{place.open[-1].column}']


def markup_expected(fault, place):
    """What XML has there."""
    at = int(fault.where)
    encoding = next((name for octets, name in ENCODINGS if place.data.startswith(octets)), None)
    if at == 0 and encoding:
        return [f'UTF-8; the file is in {encoding}']
    if fault.rule == 'BadUtf8':
        return utf8_expected(place, at)
    if fault.rule == 'BadMarkup':
        return markup_told(place, at)
    if fault.rule == 'BadReference':
        return ['&amp; &lt; &gt; &quot; &apos; or the number of a character, as &#233;; the sign & itself is &amp;']
    if fault.rule == 'BadChar':
        found = NO_CHARACTER.search(place.token_text())
        return [f'no U+{ord(found.group()):04X}'] if found else []
    if fault.rule == 'BadPrefix':
        return prefix_told(place)
    if fault.rule == 'DuplicateAttribute' and twice(place):
        return twice_told(place, *twice(place))
    if fault.rule == 'TextOutside' and at == 0 and place.data[:1] == b'0':
        return ['XML; the file may be in DER, which `show --der` reads']
    return end_expected(fault, place) if fault.rule in ('TagMismatch', 'Truncated') else []
