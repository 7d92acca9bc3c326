"""The complex types of a schema as components, choices, envelopes and amounts of a repository, and its message."""
import collections

from repository_file import IDENTIFIER_FORM, MOST_ELEMENTS, MOST_OBJECTS, NAME, NAMESPACE, Element, Entry, Message
from schema_file import XS, parts
from schema_finite import finite
from schema_simple_types import MOST_NUMBER, SimpleTypes, facet_texts, kind_of, number_of

GROUPS = ('sequence', 'choice')
KIND_OF_GROUP = {'sequence': 'MessageComponent', 'choice': 'ChoiceComponent'}


class Group:
    """A sequence or choice: its elements, wildcards and such groups as cannot be joined with it."""

    def __init__(self, node, members):
        self.node = node
        self.kind = node.name
        self.members = members


class Components:
    """Reads the message of one schema and all types that it reaches; `entries` are these, by a key."""

    def __init__(self, schema):
        self.schema = schema
        self.simple_types = SimpleTypes(schema)
        self.entries = {}
        self.waiting = collections.deque()
        self.taken = {'Document'}

    # ---- occurrences and groups

    def bound(self, node, name):
        text = node.get(name, '1').strip()
        if name == 'maxOccurs' and text == 'unbounded':
            return None
        number = number_of(text)
        if number is None:
            self.schema.tell(node, f'{name} is not a number up to {MOST_NUMBER}')
            return 1
        return number

    def group(self, node):
        """The group with inner groups joined where that says the same."""
        self.schema.only(node, 'minOccurs', 'maxOccurs')
        if (self.bound(node, 'minOccurs'), self.bound(node, 'maxOccurs')) != (1, 1):
            self.schema.tell(node, f'a {node.name} that may come otherwise than once')
        members = []
        for child in parts(node):
            if child.name in GROUPS:
                inner = self.group(child)
                members += inner.members if inner.kind == node.name or len(inner.members) == 1 else [inner]
            elif child.name in ('element', 'any'):
                members.append(child)
            else:
                self.schema.tell(child, f'`{child.name}` in a {node.name}')
        while len(members) == 1 and isinstance(members[0], Group):
            return members[0]
        return Group(node, members)

    def elements(self, group, owner):
        """The elements of a component, choice or message."""
        found = []
        for member in group.members:
            if isinstance(member, Group):
                self.schema.tell(member.node, f'a {member.kind} within a {group.kind}')
            elif member.name == 'any':
                self.schema.tell(member, f'elements of any name within a {group.kind}')
            else:
                found.append(self.element(member, owner))
        kept = [element for element in found if element.most != 0]
        self.check_elements(group, found, kept)
        return kept

    def check_elements(self, group, found, kept):
        tags = set()
        for element in kept:
            if element.tag in tags:
                self.schema.problems.tell(self.schema.path, element.line, f'the tag {element.tag} twice in one {group.kind}')
            tags.add(element.tag)
        if group.kind == 'choice':
            for element in found:
                if element.least == 0 or element.most == 0:
                    self.schema.problems.tell(self.schema.path, element.line, f'the alternative {element.tag} of a choice may be absent')
            if not group.members:
                self.schema.tell(group.node, 'a choice without alternatives')
        if len(kept) > MOST_ELEMENTS:
            self.schema.tell(group.node, f'more than {MOST_ELEMENTS} elements')

    def element(self, node, owner):
        if node.get('ref') is not None:
            self.schema.tell(node, f'a reference to the element `{node.get("ref")}`')
            return Element(node.get('ref'), 1, 1, None, node.line)
        self.schema.only(node, 'name', 'type', 'minOccurs', 'maxOccurs')
        least, most = self.bound(node, 'minOccurs'), self.bound(node, 'maxOccurs')
        tag = node.get('name', '')
        if most is not None and least > most:
            self.schema.tell(node, f'the minimum of {tag} is above its maximum')
        if not NAME.fullmatch(tag):
            self.schema.tell(node, f'the tag `{tag}` is not an ASCII name of at most 256 characters')
        return Element(tag, least, most, self.type_of(node, f'{owner}_{tag}'), node.line)

    # ---- types

    def type_of(self, node, inner_name):
        """The key of the type of an element or attribute; its entry is made now or waits to be made."""
        inner = parts(node)
        if node.get('type') is not None:
            if inner:
                self.schema.tell(inner[0], f'`{inner[0].name}` in an element')
            return self.named_type(node)
        if len(inner) != 1 or inner[0].name not in ('simpleType', 'complexType'):
            self.schema.tell(node, f'{node.name} `{node.get("name", "")}` without one type')
            return None
        return self.awaited(('inner', inner_name), inner_name, inner[0])

    def named_type(self, node):
        space, name = self.schema.named(node, 'type')
        if space == XS:
            simple = self.simple_types.of_reference(node, 'type')
            if simple is None:
                return None
            return self.placed(('built in', name), name, node, simple)
        if space != self.schema.space or name not in self.schema.types:
            self.schema.tell(node, f'`{node.get("type")}` names no type of the schema')
            return None
        return self.awaited(('named', name), name, self.schema.types[name])

    def awaited(self, key, name, node):
        if key not in self.entries:
            self.entries[key] = Entry('', name, line=node.line)
            self.waiting.append((key, node))
        return key

    def placed(self, key, name, node, simple):
        self.entries[key] = Entry(kind_of(simple, name), name, facet_texts(simple), simple.codes, line=node.line)
        return key

    def make_waiting(self):
        while self.waiting:
            key, node = self.waiting.popleft()
            if node.name == 'simpleType':
                simple = self.simple_types.of_node(node)
                if simple is not None:
                    self.placed(key, self.entries[key].name, node, simple)
            else:
                self.complex_type(self.entries[key], node)

    def content(self, node):
        """The group or the simple content of a complex type; None where it was told that it has another."""
        self.schema.only(node, 'name')
        inner = parts(node)
        if not inner:
            return Group(node, [])
        if len(inner) > 1 or inner[0].name not in (*GROUPS, 'simpleContent'):
            told = next((child for child in inner if child.name not in (*GROUPS, 'simpleContent')), inner[-1])
            self.schema.tell(told, f'`{told.name}` in a complex type')
            return None
        return self.group(inner[0]) if inner[0].name in GROUPS else inner[0]

    def complex_type(self, entry, node):
        told = len(self.schema.problems.found)
        content = self.content(node)
        if content is None:
            return
        if not isinstance(content, Group):
            self.amount(entry, content)
        elif len(content.members) == 1 and getattr(content.members[0], 'name', '') == 'any':
            self.envelope(entry, content.members[0])
        else:
            entry.kind = KIND_OF_GROUP.get(content.kind, 'MessageComponent')
            entry.elements = self.elements(content, entry.name)
            self.check_empty(node, entry.elements, told)

    def check_empty(self, node, elements, told):
        """In a complex type whose group has parts white space may stand, even if they are no elements."""
        for group in parts(node):
            if parts(group) and not elements:
                self.tell_alone(group, f'a {group.name} with parts, but without elements: white space may stand in it', told)

    def envelope(self, entry, node):
        entry.kind = 'ExternalSchema'
        self.schema.only(node, 'namespace', 'processContents', 'minOccurs', 'maxOccurs')
        if (self.bound(node, 'minOccurs'), self.bound(node, 'maxOccurs')) != (1, 1):
            self.schema.tell(node, 'an envelope of other than one element')
        if node.get('namespace', '##any').strip() != '##any':
            self.schema.tell(node, 'an envelope for elements of some namespaces alone')
        if node.get('processContents', 'strict') == 'strict':
            self.schema.tell(node, 'an envelope whose element must be declared')

    def amount(self, entry, node):
        """A number with the attribute Ccy."""
        entry.kind = 'Amount'
        inner = parts(node)
        attributes = parts(inner[0]) if inner else []
        if [child.name for child in inner] != ['extension'] or [child.name for child in attributes] != ['attribute'] \
                or attributes[0].get('name') != 'Ccy':
            self.schema.tell(node, 'simple content other than a number with the attribute Ccy')
            return
        self.schema.only(inner[0], 'base')
        self.schema.only(attributes[0], 'name', 'type', 'use', 'form')
        if attributes[0].get('form') == 'qualified':
            self.schema.tell(attributes[0], 'an attribute Ccy in the namespace')
        if attributes[0].get('use') != 'required':
            self.schema.tell(attributes[0], 'an attribute Ccy that may be absent')
        simple = self.simple_types.of_reference(inner[0], 'base')
        if simple is not None and simple.family != 'number':
            self.schema.tell(inner[0], 'the attribute Ccy on what is no number')
        elif simple is not None:
            entry.facets = facet_texts(simple)
        entry.currency = self.type_of(attributes[0], f'{entry.name}_Ccy')

    # ---- the message

    def identifier(self):
        space = self.schema.space
        identifier = space[len(NAMESPACE):] if space.startswith(NAMESPACE) else ''
        if not IDENTIFIER_FORM.fullmatch(identifier):
            self.schema.tell(self.schema.root, f'the target namespace `{space}` is not `{NAMESPACE}` and a message identifier')
        return identifier

    def message(self):
        """The message, with all that it reaches in `entries`; None where something was told."""
        told = len(self.schema.problems.found)
        identifier = self.identifier()
        block = self.message_element()
        if block is None:
            return None
        name = block.get('type', '').strip().rpartition(':')[2] or block.get('name', '')
        node, before = self.declared_type(block), len(self.schema.problems.found)
        content = None if node is None else self.content(node)
        if not isinstance(content, Group) or content.kind == 'choice':
            self.tell_alone(block, f'the message `{name}` is no sequence of elements', before)
            return None
        message = Message(identifier, name, block.get('name', ''), self.elements(content, name), node.line)
        self.check_empty(node, message.blocks, before)
        self.make_waiting()
        self.check_reached(message)
        self.name_apart(message)
        return message if len(self.schema.problems.found) == told else None

    def tell_alone(self, node, what, told):
        """Tells of something, but where more was told than so many things: it follows of these."""
        if len(self.schema.problems.found) == told:
            self.schema.tell(node, what)

    def declared_type(self, node):
        """The complex type of Document or of its element; None where it has none."""
        inner = parts(node)
        if node.get('type') is None:
            return inner[0] if [child.name for child in inner] == ['complexType'] else None
        for child in inner:
            self.schema.tell(child, f'`{child.name}` in an element')
        space, name = self.schema.named(node, 'type')
        found = self.schema.types.get(name) if space == self.schema.space else None
        return found if found is not None and found.name == 'complexType' else None

    def message_element(self):
        """The element within Document."""
        documents = [root for root in self.schema.roots if root.get('name') == 'Document']
        for root in self.schema.roots:
            if root.get('name') != 'Document':
                self.schema.tell(root, f'a second root, `{root.get("name", "")}`')
        if len(documents) != 1:
            self.schema.tell(self.schema.root, 'there is not one element `Document`')
            return None
        root = documents[0]
        self.schema.only(root, 'name', 'type')
        node, told = self.declared_type(root), len(self.schema.problems.found)
        content = None if node is None else self.content(node)
        if not isinstance(content, Group) or len(content.members) != 1 or getattr(content.members[0], 'name', '') != 'element':
            self.tell_alone(root, 'Document does not hold one element', told)
            return None
        block = content.members[0]
        self.schema.only(block, 'name', 'type', 'minOccurs', 'maxOccurs')
        if (self.bound(block, 'minOccurs'), self.bound(block, 'maxOccurs')) != (1, 1):
            self.schema.tell(block, 'Document does not hold its message once')
        if not NAME.fullmatch(block.get('name', '')):
            self.schema.tell(block, f'the tag `{block.get("name", "")}` is not an ASCII name of at most 256 characters')
        return block

    def check_reached(self, message):
        """Rules M4, M6, M11 and M17 of docs/FORMATS.md, of what the message reaches."""
        tell = self.schema.problems.tell
        for entry in self.entries.values():
            if entry.currency is not None and self.entries[entry.currency].kind not in ('Text', 'CodeSet', 'IdentifierSet', ''):
                tell(self.schema.path, entry.line, f'the currency of {entry.name} is no text')
        for named in (message, *self.entries.values()):
            if not NAME.fullmatch(named.name):
                tell(self.schema.path, named.line, f'the name `{named.name}` is not an ASCII name of at most 256 characters')
        if len(self.entries) > MOST_OBJECTS:
            tell(self.schema.path, message.line, f'more than {MOST_OBJECTS} types')
        known = finite(self.entries)
        for key, entry in self.entries.items():
            if key not in known:
                tell(self.schema.path, entry.line, f'{entry.name} has no finite instance')

    def name_apart(self, message):
        """Gives a name that is taken a number behind it; an amount takes a second name (rule M16)."""
        self.taken.update(f'{entry.name}_SimpleType' for entry in self.entries.values() if entry.currency is not None)
        for named in (message, *self.entries.values()):
            number, name = 2, named.name
            while name in self.taken:
                name = f'{named.name}_{number}'
                number += 1
            named.name = name
            self.taken.add(name)
