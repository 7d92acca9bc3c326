"""Repositories as docs/FORMATS.md, The repository file, has them: entries and messages, read and written."""
import re
from dataclasses import dataclass, field

from xml_tree import read_tree

REPOSITORY = 'urn:iso:std:iso:20022:2013:ecore'
XMI = 'http://www.omg.org/XMI'
XSI = 'http://www.w3.org/2001/XMLSchema-instance'
FACETS = ['minLength', 'maxLength', 'length', 'totalDigits', 'fractionDigits', 'minInclusive', 'maxInclusive',
          'minExclusive', 'maxExclusive', 'pattern']
COMPONENTS = ('MessageComponent', 'ChoiceComponent')
KINDS = ('Text', 'CodeSet', 'IdentifierSet', 'Amount', 'Rate', 'Quantity', 'Indicator', 'Binary', 'Date', 'DateTime', 'Time', 'Year',
         'YearMonth', 'MonthDay', 'Month', 'Day', *COMPONENTS, 'ExternalSchema')
# the limits on a message and its types
MOST_DIGITS = 18
MOST_OBJECTS, MOST_ELEMENTS, MOST_CODES, MOST_CHARACTERS = 65536, 4096, 65536, 65536
# what names and tags are
NAME = re.compile('[A-Za-z_][A-Za-z0-9_.-]{0,255}')
REFERENCES = ('simpleType', 'complexType', 'type')
IDENTIFIER = ('businessArea', 'messageFunctionality', 'flavour', 'version')
IDENTIFIER_FORM = re.compile('[a-z]{4}[.][A-Za-z0-9]{3}[.][0-9]{3}[.][0-9]{2}')
# what stands before a message's identifier in the namespace of its instances
NAMESPACE = 'urn:iso:std:iso:20022:tech:xsd:'


@dataclass
class Element:
    """An element of a component, a choice or a message; `most` is None where there is no greatest number. Of several references the first counts here."""
    tag: str
    least: int
    most: object
    reference: object
    line: int = 0
    references: int = 1


@dataclass
class Entry:
    """A type. `codes` are texts, or pairs of name and None where the trace has the text."""
    kind: str
    name: str
    facets: dict = field(default_factory=dict)
    codes: list = field(default_factory=list)
    elements: list = field(default_factory=list)
    currency: object = None
    trace: object = None
    line: int = 0


@dataclass
class Message:
    identifier: str
    name: str
    tag: str
    blocks: list
    line: int = 0


# ---- written

# line ends and tabs too, so that they are kept
ESCAPES = str.maketrans({'&': '&amp;', '<': '&lt;', '>': '&gt;', '"': '&quot;', '\t': '&#9;', '\n': '&#10;', '\r': '&#13;'})


def attribute(name, text):
    """An attribute, with a space before it."""
    return f' {name}="{str(text).translate(ESCAPES)}"'


def element_line(word, element, entries):
    kind = entries[element.reference].kind
    by = 'complexType' if kind in COMPONENTS else 'type' if kind == 'ExternalSchema' else 'simpleType'
    most = 'unbounded' if element.most is None else element.most
    return (f'<{word}{attribute("name", element.tag)}{attribute("xmlTag", element.tag)}'
            f'{attribute("minOccurs", element.least)}{attribute("maxOccurs", most)}{attribute(by, element.reference)}/>')


def entry_lines(identity, entry, entries):
    head = f'    <topLevelDictionaryEntry xsi:type="iso20022:{entry.kind}"{attribute("xmi:id", identity)}{attribute("name", entry.name)}'
    head += ''.join(attribute(name, entry.facets[name]) for name in FACETS if name in entry.facets)
    if entry.currency is not None:
        head += attribute('currencyIdentifierSet', entry.currency)
    inner = [f'      <code{attribute("name", code)}{attribute("codeName", code)}/>' for code in entry.codes]
    inner += ['      ' + element_line('messageElement', element, entries) for element in entry.elements]
    return [head + '>', *inner, '    </topLevelDictionaryEntry>'] if inner else [head + '/>']


def message_lines(message, entries):
    parts = zip(IDENTIFIER, message.identifier.split('.'))
    return [f'      <messageDefinition{attribute("name", message.name)}{attribute("xmlTag", message.tag)}>',
            *('        ' + element_line('messageBuildingBlock', block, entries) for block in message.blocks),
            '        <messageDefinitionIdentifier' + ''.join(attribute(*part) for part in parts) + '/>',
            '      </messageDefinition>']


def repository_text(entries, messages):
    """The file of these entries, by id, and messages; an entry names another by its id."""
    lines = ['<?xml version="1.0" encoding="UTF-8"?>',
             f'<iso20022:Repository xmlns:iso20022="{REPOSITORY}" xmlns:xmi="{XMI}" xmlns:xsi="{XSI}">',
             '  <dataDictionary>']
    for identity, entry in entries.items():
        lines += entry_lines(identity, entry, entries)
    lines += ['  </dataDictionary>', '  <businessProcessCatalogue>', '    <topLevelCatalogueEntry>']
    for message in messages:
        lines += message_lines(message, entries)
    lines += ['    </topLevelCatalogueEntry>', '  </businessProcessCatalogue>', '</iso20022:Repository>', '']
    return '\n'.join(lines)


# ---- read

def most_of(text):
    return None if text in ('', None, '-1', '*', 'unbounded') else int(text)


def read_element(node, least):
    references = [node.get(name) for name in REFERENCES if node.get(name)]
    return Element(node.get('xmlTag', ''), int(node.get('minOccurs', least)), most_of(node.get('maxOccurs')),
                   references[0] if references else None, node.line, len(references))


def all_of(node, name):
    """The children of the name, in no namespace or in that of a repository."""
    return [child for child in node.children if child.name == name and child.space in ('', REPOSITORY)]


def read_entry(node):
    """An entry; elements and codes within one of another kind are none, whatever they have."""
    kind = node.get(f'{{{XSI}}}type', '').partition(':')[2] or node.get(f'{{{XSI}}}type', '')
    least = 1 if kind == 'ChoiceComponent' else 0
    return Entry(kind, node.get('name', ''), {name: node.get(name) for name in FACETS if node.get(name)},
                 [(code.get('name', ''), code.get('codeName') or None) for code in all_of(node, 'code') if kind == 'CodeSet'],
                 [read_element(child, least) for child in all_of(node, 'messageElement') if kind in COMPONENTS],
                 node.get('currencyIdentifierSet') or None, node.get('trace') or None, node.line)


def read_message(node):
    identifiers = all_of(node, 'messageDefinitionIdentifier')
    identifier = '.'.join(identifiers[0].get(part, '') for part in IDENTIFIER) if identifiers else ''
    return Message(identifier, node.get('name', ''), node.get('xmlTag', ''),
                   [read_element(child, 0) for child in all_of(node, 'messageBuildingBlock')], node.line)


def read_repository(data):
    """The entries by id and the messages of a repository file that the program accepts; NotXml where expat does not take it."""
    root = read_tree(data)
    entries = {}
    for dictionary in all_of(root, 'dataDictionary'):
        for node in all_of(dictionary, 'topLevelDictionaryEntry'):
            entries.setdefault(node.get(f'{{{XMI}}}id', ''), read_entry(node))
    return entries, [read_message(node) for catalogue in all_of(root, 'businessProcessCatalogue')
                     for top in all_of(catalogue, 'topLevelCatalogueEntry') for node in all_of(top, 'messageDefinition')]


def texts_of(entries, identity):
    """The text of each code of a code set, by trace where it has none itself; None where there is none."""
    entry = entries[identity]
    found = list(entry.codes)
    for _ in range(16):
        entry = entries.get(entry.trace)
        if entry is None:
            break
        first = dict(reversed(entry.codes))
        found = [(name, text or first.get(name)) for name, text in found]
    return [text for _, text in found]


def codes_of(entries, identity):
    """The texts of a code set's codes."""
    return [text for text in texts_of(entries, identity) if text]
