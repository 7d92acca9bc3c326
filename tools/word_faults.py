"""What is wrong with the words of a call: no form, an option that there is not, a file that cannot be read, a schema for a repository."""
from place import Place, octets_to
from program import READ, REPOSITORY, WORDS, fault_of
from repository_file import IDENTIFIER_FORM

SCHEMA = 'this is a schema, of which `import` makes a repository'


def unreadable(path):
    """Why a file cannot be read; None: it can."""
    try:
        with open(path, 'rb') as file:
            file.read(1)
    except OSError as error:
        return error.strerror
    except ValueError as error:
        return str(error)
    return None


def read_faults(sources):
    """A line for each of the files that cannot be read."""
    why = ((source.name, source.fault or unreadable(source.path)) for source in sources)
    return [f'{name}: {text}' for name, text in why if text]


def schema_faults(answer, repository):
    """A line where what should be a repository is a schema."""
    fault = fault_of(answer.line)
    if fault is None or fault.rule != 'L2':
        return []
    at = int(fault.where)
    return [f'{repository.name}: {SCHEMA}'] if Place(octets_to(repository.path, at), at).is_schema() else []


def option_fault(words, options):
    """A line that names an option that there is not, or that stands behind REPO, where it is a file; None: there is none."""
    if words and words[0].startswith('--'):
        return f'isorepo: no such option: {words[0]}; there are {" and ".join(options)}'
    behind = next((word for word in words if word in options), None)
    return f'isorepo: the option {behind} stands before REPO; a file of this name is ./{behind}' if behind else None


def word_faults(answer, repository, codes, message, *files):
    """Lines that say more than the program's of its words; none where its line says all."""
    if answer.status == READ:
        return read_faults([repository, *([] if codes.name == '-' else [codes]), *files])
    if answer.status == REPOSITORY:
        return schema_faults(answer, repository)
    if answer.status == WORDS and not IDENTIFIER_FORM.fullmatch(message):
        return [f'`{message}` is no message identifier: these are as pacs.008.001.08']
    return []
