"""An XML file as a tree that knows the line of each element, and the prefixes that are bound there."""
from xml.parsers import expat

WHITE = ' \t\r\n'


class Node:
    """An element. Attributes in a namespace have names as `{namespace}name`."""
    __slots__ = ('space', 'name', 'attributes', 'bindings', 'line', 'children')

    def __init__(self, space, name, attributes, bindings, line):
        self.space = space
        self.name = name
        self.attributes = attributes
        self.bindings = bindings
        self.line = line
        self.children = []

    def get(self, name, default=None):
        return self.attributes.get(name, default)


class NotXml(Exception):
    """The bytes are no XML, or have a document type; `line` says where."""

    def __init__(self, line, what):
        super().__init__(what)
        self.line = line


class Builder:
    """Takes what expat tells."""

    def __init__(self, parser):
        self.parser = parser
        self.root = None
        self.open = []
        self.bindings = {}
        self.outer = []

    def start_binding(self, prefix, space):
        self.outer.append(self.bindings)
        self.bindings = {**self.bindings, prefix or '': space or ''}

    def end_binding(self, _prefix):
        self.bindings = self.outer.pop()

    def start(self, name, attributes):
        space, _, local = name.rpartition(' ')
        pairs = (attribute.rpartition(' ') + (text,) for attribute, text in attributes.items())
        named = {f'{{{uri}}}{key}' if uri else key: text for uri, _, key, text in pairs}
        node = Node(space, local, named, self.bindings, self.parser.CurrentLineNumber)
        if self.open:
            self.open[-1].children.append(node)
        else:
            self.root = node
        self.open.append(node)

    def end(self, _name):
        self.open.pop()

    def document_type(self, *_parts):
        raise NotXml(self.parser.CurrentLineNumber, 'a document type')


def read_tree(data):
    """The root of the XML that the bytes are; NotXml where they are none."""
    parser = expat.ParserCreate(namespace_separator=' ')
    builder = Builder(parser)
    parser.StartNamespaceDeclHandler = builder.start_binding
    parser.EndNamespaceDeclHandler = builder.end_binding
    parser.StartElementHandler = builder.start
    parser.EndElementHandler = builder.end
    parser.StartDoctypeDeclHandler = builder.document_type
    try:
        parser.Parse(data, True)
    except expat.ExpatError as error:
        told = expat.ErrorString(error.code)
        raise NotXml(error.lineno, told if told.startswith('not well-formed') else f'not well-formed: {told}') from None
    except (LookupError, ValueError):
        raise NotXml(1, 'an encoding that is not read') from None
    return builder.root
