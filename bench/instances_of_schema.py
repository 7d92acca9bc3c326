"""Instances of a message schema at random, good ones and ones with a change; read from the schema alone."""
import base64
import random
import sys
import xml.etree.ElementTree as ET
from pathlib import Path

sys.path.insert(0, str(Path(__file__).parent.parent / 'tools'))
from pattern_language import Characters, read_pattern  # noqa: E402

XS = '{http://www.w3.org/2001/XMLSchema}'
SOME = 'AZaz09 /-?:().,+é€&<'
DATES = {
    'date': ['2026-11-27', '2024-02-29', '2026-11-27+01:00', '2026-02-29', '26-11-27', '2026-11-27T00:00:00', '9999-12-31Z', '0000-01-01', '-2026-01-01', '12026-01-01'],
    'dateTime': ['2026-11-27T09:30:00', '2026-11-27T09:30:00.25+01:00', '2026-11-27T09:30:00Z', '2026-11-27', '2026-11-27T24:00:00',
                 '2026-11-27T25:00:00', '2016-12-31T23:59:60Z', '2026-11-27T09:30:00.1234567890', '2026-11-27 09:30:00'],
    'time': ['09:30:00', '09:30:00.5Z', '24:00:00', '9:30:00', '09:30'],
    'gYear': ['2026', '2026Z', '26', '-2026', '12026'],
    'gYearMonth': ['2026-11', '2026-11+01:00', '2026-13', '2026', '12026-01'],
    'gMonthDay': ['--02-29', '--02-30'], 'gMonth': ['--11', '--13'], 'gDay': ['---31', '---32'],
}
NUMBERS = ['0', '1', '12.5', '0.01', '1234.56', '100000', '-1', '+1.0', '01', '.5', '5.', '1e3', '1,5', '', ' 7 ', '0.123456', '1.50000000000',
           '99999999999999999', '999999999999999999', '9999999999999999999', '0.00000000000000001', 'NaN', '-0', '1.000000000000000000']


class Generator:
    """Makes instances; `errors` is how likely a leaf is drawn without regard to its type."""

    def __init__(self, path, seed):
        root = ET.parse(path).getroot()
        self.random = random.Random(seed)
        self.space = root.get('targetNamespace')
        self.types = {child.get('name'): child for child in root if child.tag in (XS + 'complexType', XS + 'simpleType')}
        self.root = next(child for child in root if child.tag == XS + 'element' and child.get('name') == 'Document')
        self.errors = 0.0

    def instance(self, errors, depth):
        """An instance; components deeper than `depth` get what they must have alone."""
        self.errors, self.depth = errors, depth
        return self.element(self.root, 0)

    def element(self, node, level):
        made = ET.Element('{%s}%s' % (self.space, node.get('name')))
        self.fill(made, self.type_of(node), level)
        return made

    def type_of(self, node):
        if node.get('type') is None:
            return next(child for child in node if child.tag in (XS + 'complexType', XS + 'simpleType'))
        return self.type_named(node.get('type'))

    def type_named(self, name):
        """The type of the schema that has the name, or the name of one of the standard."""
        name = name.rpartition(':')[2]
        return self.types.get(name, name)

    def fill(self, made, declared, level):
        if isinstance(declared, str) or declared.tag == XS + 'simpleType':
            made.text = self.leaf(declared)
            return
        content = [child for child in declared if child.tag != XS + 'annotation']
        if content and content[0].tag == XS + 'simpleContent':
            extension = content[0][0]
            made.text = self.leaf(self.type_named(extension.get('base')))
            for attribute in extension:
                made.set(attribute.get('name'), self.leaf(self.type_of(attribute)))
            return
        for group in content:
            self.group(made, group, level)

    def group(self, made, group, level):
        members = [child for child in group if child.tag != XS + 'annotation']
        if group.tag == XS + 'choice':
            members = [self.random.choice(members)] if members else []
        for member in members:
            if member.tag == XS + 'any':
                made.append(ET.fromstring('<e:Any xmlns:e="urn:example" a="1">text<e:b/></e:Any>'))
            elif member.tag in (XS + 'choice', XS + 'sequence'):
                self.group(made, member, level)
            else:
                for _ in range(self.times(member, level)):
                    made.append(self.element(member, level + 1))

    def times(self, member, level):
        least = int(member.get('minOccurs', '1'))
        most = member.get('maxOccurs', '1')
        most = least + 3 if most == 'unbounded' else int(most)
        if level > self.depth:
            return least
        return self.random.choice([least, least, min(least + 1, most), min(self.random.randint(least, most), least + 2)])

    # ---- leaves

    def leaf(self, declared):
        if self.random.random() < self.errors:
            return self.random.choice([*NUMBERS, '', ' ', 'A', 'A' * 36, 'EUR', 'eur', 'true', 'TRUE', '1', 'a b', ' x', self.some(self.random.randint(0, 150))])
        if isinstance(declared, str):
            return self.built_in(declared, {}, [], [])
        restriction = declared.find(XS + 'restriction')
        codes = [child.get('value') for child in restriction if child.tag == XS + 'enumeration']
        patterns = [child.get('value') for child in restriction if child.tag == XS + 'pattern']
        facets = {child.tag[len(XS):]: child.get('value') for child in restriction}
        base = restriction.get('base')
        if base.rpartition(':')[2] in self.types:
            return self.leaf(self.types[base.rpartition(':')[2]])
        return self.built_in(base.rpartition(':')[2], facets, codes, patterns)

    def built_in(self, name, facets, codes, patterns):
        if codes:
            return self.random.choice(codes)
        if patterns:
            return self.matching(read_pattern('|'.join(patterns)))
        if name == 'string':
            least = int(facets.get('minLength', facets.get('length', 0)))
            most = int(facets.get('maxLength', facets.get('length', least + 20)))
            return self.some(self.random.choice([least, most, self.random.randint(least, most)]))
        if name == 'decimal':
            return self.number(facets)
        if name == 'boolean':
            return self.random.choice(['true', 'false', '1', '0', ' true '])
        if name == 'base64Binary':
            return base64.b64encode(self.random.randbytes(self.random.randint(1, 40))).decode()
        return self.random.choice(DATES[name][:3])

    def some(self, count):
        return ''.join(self.random.choice(SOME) for _ in range(count))

    def number(self, facets):
        total, fraction = int(facets.get('totalDigits', 18)), int(facets.get('fractionDigits', 0))
        digits = self.random.randint(0, min(fraction, 6))
        whole = self.random.randint(1, max(1, min(total - digits, 9)))
        text = str(self.random.randint(0, 10 ** whole - 1))
        return text + ('.' + ''.join(self.random.choice('0123456789') for _ in range(digits)) if digits else '')

    def matching(self, branches):
        text = ''
        for atom, least, most in self.random.choice(branches):
            most = least + 3 if most is None else most
            for _ in range(self.random.choice([least, most, self.random.randint(least, most)])):
                text += self.character(atom) if isinstance(atom, Characters) else self.matching(atom)
        return text

    def character(self, atom):
        if not atom.negated:
            low, high = self.random.choice(atom.ranges)
            return chr(self.random.randint(ord(low), ord(high)))
        return next(c for c in 'A0-aZ9 ' if not any(low <= c <= high for low, high in atom.ranges))

    # ---- changes

    def changed(self, root):
        """The instance with one change at random."""
        parents = [node for node in root.iter() if len(node)]
        leaves = [node for node in root.iter() if not len(node)]
        parent, leaf = self.random.choice(parents), self.random.choice(leaves)
        child = self.random.choice(list(parent))
        place = list(parent).index(child)
        self.random.choice([self.drop, self.double, self.swap, self.rename, self.text_between, self.attribute, self.nest,
                            self.leaf_text, self.leaf_text, self.leaf_text])(parent, place, child, leaf)
        return root

    def drop(self, parent, _place, child, _leaf):
        parent.remove(child)

    def double(self, parent, place, child, _leaf):
        parent.insert(place, child)

    def swap(self, parent, place, child, _leaf):
        parent.remove(child)
        parent.insert(self.random.randint(0, len(parent)), child)

    def rename(self, _parent, _place, child, _leaf):
        child.tag = self.random.choice([child.tag + 'x', child.tag.rpartition('}')[2], '{urn:other}' + child.tag.rpartition('}')[2]])

    def text_between(self, parent, _place, _child, _leaf):
        parent.text = self.random.choice(['x', ' ', '\n  ', '\u00a0'])

    def attribute(self, parent, _place, child, leaf):
        node = self.random.choice([parent, child, leaf])
        if 'Ccy' in node.attrib and self.random.random() < 0.5:
            del node.attrib['Ccy']
        else:
            node.set(self.random.choice(['Ccy', 'a', '{http://www.w3.org/2001/XMLSchema-instance}schemaLocation', '{urn:x}a']), 'EUR x')

    def nest(self, parent, place, child, leaf):
        leaf.append(ET.Element(child.tag))

    def leaf_text(self, _parent, _place, _child, leaf):
        text = leaf.text or ''
        dates = [date for values in DATES.values() for date in values]
        leaf.text = self.random.choice([text + ' ', ' ' + text, text[:-1], text + text[-1:], text.lower(), text.upper(), text + '\n', '',
                                        self.random.choice(NUMBERS), self.random.choice(dates), self.some(self.random.randint(1, 300))])


def text_of(root):
    return ET.tostring(root, encoding='UTF-8', xml_declaration=True)
