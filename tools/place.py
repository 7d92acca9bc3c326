"""What stands before a place of an instance in XML, and the token at it."""
import re
from functools import lru_cache
from typing import NamedTuple
from xml.parsers import expat

from page import BOM, FAR
from schema_file import XS

XML = 'http://www.w3.org/XML/1998/namespace'

TOKEN = re.compile(rb'<!--.*?-->|<\?.*?\?>|<!\[CDATA\[.*?\]\]>|<(?:[^<>"\']+|"[^"]*"|\'[^\']*\')*>?|&(?:#?\w+;)?|[\xc0-\xff][\x80-\xbf]{0,3}|.', re.S)
ATTRIBUTE = re.compile(rb'([^\s=/<>"\']+)\s*=\s*("[^"]*"|\'[^\']*\')')
NAME = re.compile(rb'</?([^\s/>]*)')
# what stands in the spelling of a value for another character (XML 1.0, section 3.3.3)
SPELLED = re.compile(r'&#x([0-9A-Fa-f]+);|&#([0-9]+);|&(lt|gt|amp|quot|apos);|\r\n|[\t\r\n]')
ENTITIES = {'lt': '<', 'gt': '>', 'amp': '&', 'quot': '"', 'apos': "'"}
MOST_CHARACTER = 0x10ffff
# of a tag, in octets
MOST_TAG = 2 ** 20


def octets_to(path, place):
    """The octets of a file up to a place, and some behind it: more than a tag may have where one begins there."""
    with open(path, 'rb') as file:
        data = file.read(place + FAR)
        return data + file.read(MOST_TAG) if data[place:place + 1] == b'<' else data


class Open(NamedTuple):
    """An element that is open: its tag, the octet, line and column where it begins, and the tags of the children that came."""
    tag: str
    octet: int
    line: int
    column: int
    children: list


def read_spelled(found):
    """The character that a reference in a value names, or the space that a line end or tab is."""
    hexadecimal, decimal, name = found.groups()
    if name:
        return ENTITIES[name]
    if not (hexadecimal or decimal):
        return ' '
    digits = (hexadecimal or decimal).lstrip('0')
    number = int(digits, 16 if hexadecimal else 10) if 0 < len(digits) < 8 else 0
    return chr(number) if 0 < number <= MOST_CHARACTER else found[0]


class Attribute(NamedTuple):
    """An attribute of a tag as it is spelled, with the octets of the tag from which and to which it stands."""
    name: str
    value: str
    start: int
    end: int

    def is_declaration(self):
        return self.name == 'xmlns' or self.name.startswith('xmlns:')

    def text(self):
        """The value that is spelled."""
        return SPELLED.sub(read_spelled, self.value)


class Place:
    """The elements that are open before a place, the last text, and the token there; `data` goes on behind the place. It `follows` where expat takes all that stands before."""

    def __init__(self, data, place):
        self.data = data
        self.open = []
        self.last_tag = None
        self.bound = {'xml': [XML]}
        self.pieces = []
        found = TOKEN.match(data, place)
        self.token = found.group() if found else b''
        self.parser = expat.ParserCreate(namespace_separator=' ')
        self.parser.buffer_text = True
        self.parser.ordered_attributes = True
        self.parser.StartElementHandler = self.start
        self.parser.EndElementHandler = self.end
        self.parser.CharacterDataHandler = self.pieces.append
        self.parser.StartNamespaceDeclHandler = self.bind
        self.parser.EndNamespaceDeclHandler = self.unbind
        # Of a text expat holds `]` and CR at its end back until it sees that a tag begins.
        self.is_tag = data[place:place + 1] == b'<'
        self.follows = self.parse(data[:place + self.is_tag])
        if not self.follows:
            self.open.clear()

    def parse(self, data):
        """Whether expat takes the data."""
        try:
            self.parser.Parse(data, False)
        except (expat.ExpatError, LookupError, ValueError):
            return False
        return True

    def bind(self, prefix, space):
        self.bound.setdefault(prefix, []).append(space)

    def unbind(self, prefix):
        self.bound[prefix].pop()

    def start(self, name, _attributes):
        tag = name.rpartition(' ')[2]
        if self.open:
            self.open[-1].children.append(tag)
        line, column = self.parser.CurrentLineNumber, self.parser.CurrentColumnNumber + 1
        self.last_tag = self.parser.CurrentByteIndex
        self.open.append(Open(tag, self.last_tag, line, column - (line == 1 and self.data.startswith(BOM)), []))
        self.pieces.clear()

    def end(self, _name):
        self.open.pop()
        at = self.parser.CurrentByteIndex
        # Of <Name/> expat tells the octet behind it.
        if self.data[at - 2:at] != b'/>':
            self.last_tag = at

    def tag_end(self):
        """The octet behind the last tag; 0: there is none."""
        return 0 if self.last_tag is None else TOKEN.match(self.data, self.last_tag).end()

    def text(self):
        """The text behind the last start tag."""
        return ''.join(self.pieces)

    def open_name(self):
        """The name of the innermost open element as it is spelled, with its prefix."""
        found = NAME.match(self.data, self.open[-1].octet) if self.open else None
        return found.group(1).decode(errors='replace') if found else ''

    def text_start(self):
        """The octet behind the start tag of the innermost open element."""
        found = TOKEN.match(self.data, self.open[-1].octet) if self.open else None
        return found.end() if found else 0

    @lru_cache(None)
    def expanded(self):
        """The namespace and tag of the start tag at the place; None of any other token. No events are asked behind it."""
        started = []
        self.parser.StartElementHandler = lambda name, _attributes: started.append(name)
        self.parser.EndElementHandler = None
        self.parse(self.token[self.is_tag:])
        if not started:
            return None
        space, _, tag = started[0].rpartition(' ')
        return space, tag

    def is_schema(self):
        """Whether the tag is that of a schema."""
        return self.expanded() == (XS, 'schema')

    def token_text(self):
        return self.token.decode(errors='replace')

    def is_beyond_limit(self, at):
        """Whether a tag begins there that has not ended in as many octets as a tag may have."""
        if len(self.token) > MOST_TAG:
            return True
        behind = self.data[at + 1:at + MOST_TAG + 1]
        return not self.token.endswith(b'>') and len(behind) == MOST_TAG and b'<' not in behind

    def tag_name(self):
        """The name in the tag as it is spelled, with its prefix."""
        found = NAME.match(self.token)
        return found.group(1).decode(errors='replace') if found else ''

    def attributes(self):
        start = NAME.match(self.token)
        found = ATTRIBUTE.finditer(self.token, start.end()) if start else []
        return [Attribute(it[1].decode(errors='replace'), it[2][1:-1].decode(errors='replace'), it.start(), it.end()) for it in found]

    def named_attributes(self):
        """The attributes that are no declarations, each with its namespace, which is None where its prefix is not bound, and its local name. It `follows`."""
        attributes = self.attributes()
        spaces = {prefix: found[-1] for prefix, found in self.bound.items() if found}
        spaces.update((it.name[6:], it.text()) for it in attributes if it.name.startswith('xmlns:'))
        spelled = [(it, *it.name.rpartition(':')) for it in attributes if not it.is_declaration()]
        return [(it, spaces.get(prefix) if colon else '', local) for it, prefix, colon, local in spelled]

    def prefixes(self):
        """The prefixes of the tag that no declaration binds."""
        attributes = self.attributes()
        declared = {it.name.partition(':')[2] for it in attributes if it.is_declaration()}
        names = [self.tag_name(), *(it.name for it in attributes if not it.is_declaration())]
        used = [name.partition(':')[0] for name in names if ':' in name]
        return [prefix for prefix in dict.fromkeys(used) if prefix not in declared and not self.bound.get(prefix)]
