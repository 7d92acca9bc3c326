"""isorepo import SCHEMA..: message schemas of ISO 20022 as one repository file that says the same."""
from streams import NOTES, OUT, run  # first, as it says

import hashlib

from repository_file import COMPONENTS, repository_text
from schema_components import Components
from schema_file import Problems, Schema


def own_text(entry):
    """What an entry says, but for what it refers to."""
    return repr((entry.kind, entry.name, sorted(entry.facets.items()), entry.codes,
                 [(element.tag, element.least, element.most) for element in entry.elements], entry.currency is None))


def classes(entries):
    """A class for each key, equal for entries that say the same, with all that they refer to."""
    known = {key: own_text(entry) for key, entry in entries.items()}
    count = 0
    while count < len(set(known.values())):
        count = len(set(known.values()))
        known = {key: digest([known[key]] + [known.get(reference, '') for reference in references(entries[key])])
                 for key in entries}
    return known


def references(entry):
    return [element.reference for element in entry.elements] + [entry.currency]


def digest(texts):
    return hashlib.sha256(repr(texts).encode()).hexdigest()


def join(messages):
    """The entries of all messages by id, each once, and the messages; simple types come first, then by name."""
    entries = {(place, key): renamed(entry, place) for place, (_, found) in enumerate(messages) for key, entry in found.items()}
    known = classes(entries)
    ids, joined = {}, {}
    for key in sorted(entries, key=lambda key: (entries[key].kind in COMPONENTS, entries[key].name)):
        if known[key] not in ids:
            ids[known[key]] = free_id(entries[key].name, joined)
            joined[ids[known[key]]] = entries[key]
    identity = {key: ids[known[key]] for key in entries}
    for entry in joined.values():
        entry.currency = identity.get(entry.currency)
        refer(entry.elements, identity)
    for place, (message, _) in enumerate(messages):
        for block in message.blocks:
            block.reference = (place, block.reference)
        refer(message.blocks, identity)
    return joined, [message for message, _ in messages]


def renamed(entry, place):
    """The entry with keys that are apart from those of other schemas."""
    entry.currency = None if entry.currency is None else (place, entry.currency)
    for element in entry.elements:
        element.reference = (place, element.reference)
    return entry


def refer(elements, identity):
    for element in elements:
        element.reference = identity[element.reference]


def free_id(name, joined):
    number, identity = 2, f'_{name}'
    while identity in joined:
        identity = f'_{name}.{number}'
        number += 1
    return identity


def read_messages(paths, problems):
    """The message and the entries of each schema."""
    found, places = [], {}
    for path in paths:
        with open(path, 'rb') as file:
            schema = Schema(path, file.read(), problems)
        if schema.root is None:
            continue
        components = Components(schema)
        try:
            message = components.message()
        except RecursionError:
            problems.tell(path, schema.root.line, 'groups or types are nested too deep')
            continue
        if message is None:
            continue
        if message.identifier in places:
            problems.tell(path, message.line, f'the message {message.identifier} is in {places[message.identifier]} too')
        places[message.identifier] = path
        found.append((message, components.entries))
    return found


def main(paths):
    problems = Problems()
    if not paths:
        NOTES.line('usage: isorepo import SCHEMA..')
        return 1
    try:
        messages = read_messages(paths, problems)
    except OSError as error:
        NOTES.line(f'isorepo: {error.filename}: {error.strerror}')
        return 6
    if problems.found:
        lines = problems.lines()
        NOTES.write('\n'.join([*lines, f'isorepo: no repository, for {len(lines)} thing{"" if len(lines) == 1 else "s"} that it cannot say']) + '\n')
        return 1
    OUT.write(repository_text(*join(messages)))
    return 0


if __name__ == '__main__':
    run(main)
