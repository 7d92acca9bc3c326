"""check_by_dask.py SCHEDULER REPO CODES MSGID LIST: check-all over the workers of a Dask cluster.

LIST is a file with a path a line. Each worker has isorepo on its PATH, or at $ISOREPO of the client. The files go to
the workers with their batch, so that no file system is shared; a batch of a worker that is gone goes to another. The
table goes to gather.py, which says what a single call of check-all would.
"""
import csv
import io
import os
import subprocess
import sys
import tempfile
from pathlib import Path

from distributed import Client, as_completed

BATCH = int(os.environ.get('BATCH', 20))
AHEAD = 4


def check_batch(launcher, message, repository, codes, batch):
    """On a worker: the rows of check-all for the batch, a list of names and bytes, and its answer where there is no table."""
    csv.field_size_limit(2 ** 31 - 1)
    with tempfile.TemporaryDirectory() as name:
        folder = Path(name)
        (folder / 'repository').write_bytes(repository)
        if codes is not None:
            (folder / 'codes').write_bytes(codes)
        for number, (_, data) in enumerate(batch):
            (folder / f'{number}').write_bytes(data)
        words = [launcher, 'check-all', 'repository', '-' if codes is None else 'codes', message, *map(str, range(len(batch)))]
        run = subprocess.run(words, cwd=folder, capture_output=True, text=True, check=False)
        if run.returncode > 5:
            raise RuntimeError(run.stderr)
        rows = list(csv.reader(io.StringIO(run.stdout)))[1:]
        return [[batch[int(row[0])][0], *row[1:]] for row in rows], '' if rows else run.stderr


def batches(names):
    for start in range(0, len(names), BATCH):
        yield [(name, Path(name).read_bytes()) for name in names[start:start + BATCH]]


def check_all(client, words, names):
    """The rows of all files, as they come; some batches for each worker are under way at a time. An answer without table is noted."""
    waiting = batches(names)

    def submit():
        batch = next(waiting, None)
        return [] if batch is None else [client.submit(check_batch, *words, batch, pure=False, retries=4)]

    started = [future for _ in range(AHEAD * max(1, len(client.ncores()))) for future in submit()]
    done = as_completed(started)
    for future in done:
        rows, answer = future.result()
        sys.stderr.write(answer)
        yield from rows
        for more in submit():
            done.add(more)


def main(scheduler, repository, codes, message, path):
    names = [line for line in Path(path).read_text().splitlines() if line]
    given = None if codes == '-' else Path(codes).read_bytes()
    words = (os.environ.get('ISOREPO', 'isorepo'), message, Path(repository).read_bytes(), given)
    gather = [sys.executable, str(Path(__file__).with_name('gather.py')), path]
    with Client(scheduler) as client, subprocess.Popen(gather, stdin=subprocess.PIPE, text=True) as table:
        csv.writer(table.stdin, lineterminator='\n').writerows(check_all(client, words, names))
        table.stdin.close()
        return table.wait()


if __name__ == '__main__':
    if len(sys.argv) != 6:
        sys.exit('usage: check_by_dask.py SCHEDULER REPO CODES MSGID LIST')
    sys.exit(main(*sys.argv[1:]))
