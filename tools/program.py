"""Runs the proved program, whose path the launcher hands on, and reads its lines."""
import os
import re
import stat
import subprocess
from typing import NamedTuple, Optional

from streams import NOT_RUN, SIGNALLED

PROGRAM = os.environ.get('ISOREPO_PROGRAM') or os.path.join(os.path.dirname(os.path.abspath(__file__)), '../crates/repo_cmd/out/repo_cmd')
DONE, WORDS, REPOSITORY, CODES, MESSAGE, INSTANCE, READ = range(7)
NO_UTF8 = 9
FAULT = re.compile(r'refused: (\w+) (\w+)(?: (\w+))?(?: at (?:record )?(\S+))?(?: in (\S+))?')
# an id of a repository is any text
OF_MESSAGE = re.compile(r'refused: (message) (\w+)() at (.*)()', re.DOTALL)
FAILED_READ = 'failed: read'


class Answer(NamedTuple):
    """How a call ended: status, what it printed, and its line of any other answer."""
    status: int
    out: str
    line: str


class Fault(NamedTuple):
    """What a line of the program says: the rule (of a repository of bad XML the rule of XML), where, and the path."""
    what: str
    rule: str
    where: Optional[str]
    path: Optional[str]


class Source(NamedTuple):
    """A file: the name that was given, a path where its bytes can be read more than once, and why there is none where there should be a copy."""
    name: str
    path: str
    fault: Optional[str] = None


def source(name, stack):
    """The file of a name. A pipe can be read once, and /dev/stdin is another for the program: of such there is a copy, until the stack ends."""
    try:
        is_kept = stat.S_ISREG(os.stat(name).st_mode) and not name.startswith(('/dev/', '/proc/'))
        if is_kept or os.path.isdir(name):
            return Source(name, name)
        file = open(name, 'rb')
    except OSError:
        return Source(name, name)
    with file:
        return copied(name, file, stack)


def copied(name, file, stack):
    """A copy of an open file. Where it cannot be made whole, what was read of the pipe is gone: a folder stands for it, which no one can read."""
    # These take as long to load as all else.
    import shutil
    import tempfile
    try:
        number, path = tempfile.mkstemp(prefix='isorepo-')
        stack.callback(os.unlink, path)
        with open(number, 'wb') as copy:
            shutil.copyfileobj(file, copy)
    except OSError as error:
        return Source(name, '/', f'no copy of it in {tempfile.tempdir or "a folder"} could be made: {error.strerror}')
    return Source(name, path)


def standard_input(stack):
    """A copy of standard input, whose name is `-`."""
    try:
        file = open(0, 'rb', closefd=False)
    except OSError as error:
        return Source('-', '/', error.strerror)
    with file:
        return copied('-', file, stack)


def codes_source(name, stack):
    """The file of external codes; `-` is none, whatever is called so."""
    return Source(name, name) if name == '-' else source(name, stack)


def answer(words, file=None):
    """Runs the program with the words, and with the file at its standard input. As in a shell, 128 and a number is a signal that ended it."""
    try:
        run = subprocess.run([PROGRAM, *words], stdin=subprocess.DEVNULL if file is None else file, capture_output=True, check=False)
    except OSError as error:
        return Answer(NOT_RUN, '', f'isorepo: {PROGRAM}: {error.strerror}')
    if run.returncode < 0:
        return Answer(SIGNALLED - run.returncode, '', f'isorepo: the program was ended by the signal {-run.returncode}')
    line = run.stderr.decode(errors='surrogateescape').removesuffix('\n')
    if run.returncode == NO_UTF8 and not line:
        line = 'isorepo: a word is no UTF-8'
    return Answer(run.returncode, run.stdout.decode(errors='surrogateescape'), line)


def check(repository, codes, message, path, verb='check-xml'):
    """The answer for the file at the path; for one that does not open that of a source that fails."""
    try:
        file = open(path, 'rb')
    except (OSError, ValueError):
        return Answer(READ, '', FAILED_READ)
    with file:
        return answer([verb, repository, codes, message], file)


def fault_of(line):
    """The parts of a line of a refusal; None of any other."""
    found = OF_MESSAGE.fullmatch(line) or FAULT.fullmatch(line)
    if found is None:
        return None
    what, rule, inner, where, path = found.groups()
    return Fault(what, inner or rule, where, path or None)
