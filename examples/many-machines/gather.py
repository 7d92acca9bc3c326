"""gather.py LIST: joins the tables of many calls of check-all, on standard input, to the one that a single call gives.

Each file of LIST, a path a line, stands in it once, in their order. What was told twice is told once, where both say the
same; a file that no table has is named on standard error. The status is the greatest of the files, and 10 where one is
missing, or is told in two ways; 6 where LIST or standard input cannot be read, and 7 where the others cannot be written.
"""
import collections
import contextlib
import csv
import os
import sys

SHOWN = 8
HEAD = ['file', 'status', 'rule', 'place', 'path', 'line']
READ, WRITE = 6, 7
csv.field_size_limit(2 ** 31 - 1)


def read_rows(lines):
    """The rows of all tables by their file, and the files that are told in two ways."""
    rows, torn = {}, []
    for row in csv.reader(lines):
        if len(row) == len(HEAD) and row != HEAD and row[1].isdigit():
            if rows.setdefault(row[0], row) != row:
                torn.append(row[0])
    return rows, torn


def gather(names, rows):
    """Writes the table; the names that it lacks."""
    table = csv.writer(sys.stdout, lineterminator='\n')
    table.writerow(HEAD)
    table.writerows(rows[name] for name in names if name in rows)
    return [name for name in names if name not in rows]


def tell(names, rows, missing, torn):
    counts = collections.Counter(rows[name][2] or rows[name][5] for name in names if name in rows)
    print(f'{len(names)} file{"" if len(names) == 1 else "s"}: {counts.pop("accepted", 0)} accepted', file=sys.stderr)
    for rule, count in sorted(counts.items(), key=lambda item: (-item[1], item[0])):
        print(f'{count:>7}  {rule}', file=sys.stderr)
    for what, found in (('missing', missing), ('told in two ways', torn)):
        if found:
            print(f'{len(found)} {what}: {", ".join(found[:SHOWN])}{", .." if len(found) > SHOWN else ""}', file=sys.stderr)


def failed(what, status):
    """The status of an end that is noted, if it can be."""
    with contextlib.suppress(OSError):
        print(f'failed: {what}', file=sys.stderr, flush=True)
    return status


def main(words):
    if len(words) != 1:
        print('usage: gather.py LIST', file=sys.stderr, flush=True)
        return 1
    try:
        with open(words[0], encoding='utf-8', errors='surrogateescape') as file:
            lines = file.readlines()
    except OSError as error:
        print(f'{words[0]}: {error.strerror}', file=sys.stderr, flush=True)
        return READ
    names = list(dict.fromkeys(line.rstrip('\n') for line in lines if line.strip()))
    try:
        rows, torn = read_rows(sys.stdin)
    except OSError:
        return failed('read', READ)
    missing = gather(names, rows)
    sys.stdout.flush()
    tell(names, rows, missing, torn)
    sys.stderr.flush()
    return 10 if missing or torn else max((int(rows[name][1]) for name in names), default=0)


def run(words):
    """The status of a call, also where a stream is closed or full."""
    if sys.stderr is None or sys.stdout is None:
        return WRITE if sys.stderr is None else failed('write', WRITE)
    if sys.stdin is None:
        return failed('read', READ)
    sys.stdin.reconfigure(encoding='utf-8', errors='surrogateescape', newline='')
    for stream in (sys.stdout, sys.stderr):
        stream.reconfigure(encoding='utf-8', errors='surrogateescape')
    try:
        return main(words)
    except OSError:
        return failed('write', WRITE)


if __name__ == '__main__':
    # At once: what could not be written is not tried again.
    os._exit(run(sys.argv[1:]))
