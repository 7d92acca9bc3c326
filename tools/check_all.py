"""isorepo check-all [--der] [--from LIST] REPO CODES MSGID FILES..: a table of the program's answers for many files."""
from streams import NOTES, OUT, SIGNALLED, run  # first, as it says

import collections
import contextlib
import csv
import os
import signal
from concurrent.futures import ThreadPoolExecutor
from pathlib import Path
from typing import NamedTuple

from external_codes import note_unused
from page import BOM
from program import DONE, FAILED_READ, READ, WORDS, Answer, answer, check, codes_source, fault_of, source
from rule_sentences import SENTENCES
from word_faults import option_fault, word_faults

HEAD = ('file', 'status', 'rule', 'place', 'path', 'line')
OPTIONS = ('--der', '--from')
USAGE = 'usage: isorepo check-all [--der] [--from LIST] REPO CODES MSGID FILES..'
STANDARD_INPUT = 'standard input'
BAR = 40
AT_ONCE = 4096
UTF_16 = (b'\xff\xfe', b'\xfe\xff')
UNREAD = Answer(READ, '', FAILED_READ)


class File(NamedTuple):
    """A file that is asked about; one that was found below a folder and is no plain file is not read."""
    path: str
    is_read: bool = True


def files_below(folder, ending):
    """What is below a folder and has the ending, in order; the folders that cannot be read, and links to folders or to nothing, too."""
    found = []
    for at, folders, names in os.walk(folder, onerror=lambda error: found.append(File(error.filename, False))):
        paths = [os.path.join(at, name) for name in names if name.lower().endswith(ending)]
        links = [path for path in (os.path.join(at, name) for name in folders + names) if os.path.islink(path) and not os.path.isfile(path)]
        found += [File(str(Path(path)), os.path.isfile(path)) for path in dict.fromkeys(paths + links)]
    return sorted(found)


def files_of(words, ending):
    """The files that are named, and of each folder those below it, in order."""
    for word in words:
        if os.path.isdir(word):
            yield from files_below(word, ending)
        else:
            yield File(word)


def names_of(path):
    """The names in a list, a line each, or parted by zero octets if it has some; `-` is standard input."""
    with open(0 if path == '-' else path, 'rb') as file:
        data = file.read().removeprefix(BOM)
    if data.startswith(UTF_16):
        raise UnicodeError(f'{STANDARD_INPUT if path == "-" else path} is in UTF-16; UTF-8 is read')
    return [os.fsdecode(name) for name in (data.split(b'\0') if b'\0' in data else data.splitlines()) if name]


class Rows:
    """Standard output as `csv` writes rows to it: a lone CR in a field is quoted only where rows end in CR and LF, and here they end in LF."""

    @staticmethod
    def write(row):
        OUT.write(row.removesuffix('\r\n') + '\n')


def row_of(path, given):
    fault = fault_of(given.line) if given.line else None
    rule, place, trace = (fault.rule, fault.where or '', fault.path or '') if fault else ('', '', '')
    return path, given.status, rule, place, trace, given.line or given.out.strip()


class Progress:
    """A bar on a terminal, and nothing elsewhere."""

    def __init__(self, count):
        self.count = count
        self.refused = 0
        self.shown = NOTES.is_terminal()

    def step(self, done, status):
        self.refused += status != DONE
        if self.shown and (done % 16 == 0 or done == self.count):
            told = f'{done} of {self.count}, {self.refused} refused'
            columns = NOTES.columns(80) - 1
            width = min(BAR, columns - len(told) - 3)
            filled = width * done // self.count
            bar = f'[{"#" * filled}{"." * (width - filled)}] ' if width > 0 else ''
            NOTES.write('\r' + f'{bar}{told}'[:columns])

    def end(self):
        if self.shown:
            NOTES.write('\r\033[K')


def summary(counts):
    """How many files were accepted, and how many each rule refuses."""
    total = sum(counts.values())
    lines = [f'{total} file{"" if total == 1 else "s"}: {counts.pop("accepted", 0)} accepted']
    width = max(map(len, counts), default=0)
    for rule, count in sorted(counts.items(), key=lambda item: (-item[1], item[0])):
        lines.append(f'{count:>7}  {rule:<{width}}  {SENTENCES.get(rule, "")}'.rstrip())
    return lines


def answers(pool, verb, words, files):
    """The answer for each file, in their order. Some thousands are asked for at a time, so that a million of files takes no more memory."""
    for start in range(0, len(files), AT_ONCE):
        yield from pool.map(lambda file: check(*words, file.path, verb) if file.is_read else UNREAD, files[start:start + AT_ONCE])


def check_files(verb, words, files, counts):
    """Writes a row for each file, in their order, and counts the files of each rule; the greatest status."""
    table = csv.writer(Rows)
    table.writerow(HEAD)
    worst, progress = DONE, Progress(len(files))
    pool = ThreadPoolExecutor(len(os.sched_getaffinity(0)))
    try:
        for done, (file, given) in enumerate(zip(files, answers(pool, verb, words, files)), 1):
            if given.status == SIGNALLED + signal.SIGINT:
                raise KeyboardInterrupt
            row = row_of(file.path, given)
            table.writerow(row)
            worst = max(worst, given.status)
            counts[row[2] or ('accepted' if given.status == DONE else given.line or f'status {given.status}')] += 1
            progress.step(done, given.status)
    finally:
        pool.shutdown(wait=False, cancel_futures=True)
        progress.end()
    return worst


def check_all(verb, repository, codes, message, files):
    """The table and its summary; only a line where repository, codes or message are refused, or there are no files."""
    words = (repository.path, codes.path, message)
    first = answer(['types', *words])
    if first.status != DONE:
        NOTES.write(''.join(line + '\n' for line in (first.line, *word_faults(first, repository, codes, message)) if line))
        return first.status
    if not files:
        NOTES.line('isorepo: there is no file to check')
        return WORDS
    note_unused(repository, codes)
    counts = collections.Counter()
    try:
        worst = check_files(verb, words, files, counts)
    except KeyboardInterrupt:
        NOTES.line(f'isorepo: interrupted; of {len(files)} files {sum(counts.values())} were checked')
        raise
    NOTES.write('\n'.join(summary(counts)) + '\n')
    return worst


def main(words):
    is_der, lists = False, []
    while words[:1] in (['--der'], ['--from']):
        is_der |= words[0] == '--der'
        lists += words[1:2] if words[0] == '--from' else []
        words = words[1 if words[0] == '--der' else 2:]
    fault = option_fault(words, OPTIONS)
    if fault or len(words) < (3 if lists else 4):
        NOTES.line(fault or USAGE)
        return WORDS
    verb, ending = ('check-der', '.der') if is_der else ('check-xml', '.xml')
    with contextlib.ExitStack() as stack:
        repository, codes = source(words[0], stack), codes_source(words[1], stack)
        try:
            names = [*words[3:], *(name for path in lists for name in names_of(path))]
        except OSError as error:
            NOTES.line(f'{FAILED_READ}\n{error.filename or STANDARD_INPUT}: {error.strerror}')
            return READ
        except UnicodeError as error:
            NOTES.line(f'{FAILED_READ}\n{error}')
            return READ
        return check_all(verb, repository, codes, words[2], list(files_of(names, ending)))


if __name__ == '__main__':
    run(main)
