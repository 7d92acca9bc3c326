"""A schema file: its declarations by name, what a reference in it names, and what is found that cannot be said."""
from xml_tree import NotXml, read_tree

XS = 'http://www.w3.org/2001/XMLSchema'
TRUE, FALSE = ('true', '1'), ('false', '0')
# attributes that change nothing of what is accepted, by the values with which they do not (None: any)
HARMLESS = {'id': None, 'form': ('qualified',), 'nillable': FALSE, 'abstract': FALSE, 'mixed': FALSE, 'block': None, 'final': None}


class Problems:
    """What is found that a repository cannot say, by file and line."""

    def __init__(self):
        self.found = {}

    def tell(self, path, line, what):
        self.found[path, line, what] = None

    def lines(self):
        """A line for each, by file in the order in which files were given, and by line."""
        order = {}
        for path, _, _ in self.found:
            order.setdefault(path, len(order))
        return [f'{path}:{line}: {what}' for path, line, what in sorted(self.found, key=lambda it: (order[it[0]], it[1]))]


def parts(node):
    """The children that say something; what is in another namespace is told of by its schema."""
    return [child for child in node.children if child.space == XS and child.name != 'annotation']


class Schema:
    """A schema file. `types` are its complex and simple types by name, `roots` its elements."""

    def __init__(self, path, data, problems):
        self.path = path
        self.problems = problems
        self.types = {}
        self.roots = []
        self.space = ''
        try:
            self.root = read_tree(data)
        except NotXml as error:
            self.root = None
            problems.tell(path, error.line, str(error))
        if self.root is not None and not self.is_schema():
            self.root = None
        if self.root is not None:
            self.tell_foreign()
            self.declare()

    def tell(self, node, what):
        self.problems.tell(self.path, node.line, what)

    def is_schema(self):
        root = self.root
        if (root.space, root.name) != (XS, 'schema'):
            self.tell(root, f'the root is not `schema` of {XS}')
            return False
        self.space = root.get('targetNamespace', '')
        if root.get('elementFormDefault') != 'qualified':
            self.tell(root, 'elements that are in no namespace: elementFormDefault is not `qualified`')
        if root.get('attributeFormDefault') == 'qualified':
            self.tell(root, 'attributes that are in the namespace: attributeFormDefault is `qualified`')
        return True

    def tell_foreign(self):
        """Tells of the elements in other namespaces, but for those within annotations."""
        left = [self.root]
        while left:
            for child in left.pop().children:
                if child.space != XS:
                    self.tell(child, f'`{child.name}` of {f"the namespace `{child.space}`" if child.space else "no namespace"}')
                elif child.name != 'annotation':
                    left.append(child)

    def declare(self):
        for child in parts(self.root):
            name = child.get('name', '')
            if child.name in ('complexType', 'simpleType'):
                if name in self.types:
                    self.tell(child, f'a second type `{name}`')
                self.types[name] = child
            elif child.name == 'element':
                self.roots.append(child)
            else:
                self.tell(child, f'`{child.name}` of a schema')

    def only(self, node, *names):
        """Tells of attributes other than these that change what is accepted."""
        for name, text in node.attributes.items():
            harmless = name in HARMLESS and (HARMLESS[name] is None or text.strip() in HARMLESS[name])
            if name not in names and not name.startswith('{') and not harmless:
                self.tell(node, f'{node.name} with {name}="{text}"')

    def named(self, node, attribute):
        """The namespace and the name that the attribute of a node refers to."""
        prefix, colon, local = node.get(attribute, '').strip().rpartition(':')
        space = node.bindings.get(prefix)
        if space is None:
            if colon:
                self.tell(node, f'the prefix `{prefix}` is not declared')
            space = ''
        return space, local
