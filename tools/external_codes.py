"""The external codes of a file by the names of their sets, and the names that no code set of a repository has."""
import csv
from xml.parsers import expat

from page import printable
from repository_file import REPOSITORY, XSI
from streams import NOTES

FIRST_SETS = 8
# in no namespace or in that of a repository, as expat has them
DICTIONARY = ('dataDictionary', f'{REPOSITORY} dataDictionary')
ENTRY = ('topLevelDictionaryEntry', f'{REPOSITORY} topLevelDictionaryEntry')
csv.field_size_limit(2 ** 31 - 1)


def read_codes(path):
    """The external codes of a file by the name of their set."""
    codes = {}
    if path != '-':
        with open(path, encoding='utf-8-sig', errors='replace', newline='') as file:
            for record in csv.reader(file):
                if len(record) == 2:
                    codes.setdefault(record[0], {})[record[1]] = None
    return {name: list(texts) for name, texts in codes.items()}


class SetNames:
    """Takes the names of the code sets of a repository file from what expat tells, and keeps no tree of it."""

    def __init__(self):
        self.names = set()
        self.open = []

    def start(self, name, attributes):
        self.open.append(name)
        if name in ENTRY and len(self.open) == 3 and self.open[1] in DICTIONARY:
            kind = attributes.get(f'{XSI} type', '')
            if (kind.partition(':')[2] or kind) == 'CodeSet':
                self.names.add(attributes.get('name', ''))

    def end(self, _name):
        self.open.pop()


def set_names(path):
    """The names of the code sets of a repository file that the program accepts; None where expat does not take it."""
    parser, found = expat.ParserCreate(namespace_separator=' '), SetNames()
    parser.StartElementHandler, parser.EndElementHandler = found.start, found.end
    try:
        with open(path, 'rb') as file:
            parser.ParseFile(file)
    except (expat.ExpatError, LookupError, ValueError):
        return None
    return found.names


def unused_sets(repository, codes):
    """The names in the codes that no code set of the repository has; none where that cannot be told."""
    try:
        known = None if codes.name == '-' else set_names(repository.path)
        return [] if known is None else [name for name in read_codes(codes.path) if name not in known]
    except (csv.Error, OSError, MemoryError):
        return []


def note_unused(repository, codes):
    """Names the code sets of CODES that the repository does not have: the program passes them over."""
    names = [f'`{printable(name)}`' for name in unused_sets(repository, codes)]
    more = f', and {len(names) - FIRST_SETS} more' if len(names) > FIRST_SETS else ''
    if names:
        NOTES.line(f'{codes.name}: the repository has no code set {", ".join(names[:FIRST_SETS])}{more}')
