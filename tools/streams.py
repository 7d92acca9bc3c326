"""The streams of a script, and how it ends: by its status, by a stream that fails, by want of memory, or interrupted."""
import os
import signal
import sys

WRITE, MEMORY, NOT_RUN, SIGNALLED = 7, 8, 10, 128

if sys.version_info < (3, 9):
    sys.stderr.write('isorepo: import, show and check-all need Python 3.9 or later\n')
    sys.exit(NOT_RUN)

# Scripts load this first: until `run` is called Ctrl-C ends them as it ends any command, without Python's words.
if signal.getsignal(signal.SIGINT) is signal.default_int_handler:
    signal.signal(signal.SIGINT, signal.SIG_DFL)


class WriteFault(Exception):
    """Standard output or standard error could not be written."""


class Stream:
    """What is written goes out at once, as UTF-8; names of files as the bytes that they are."""

    def __init__(self, number):
        self.number = number

    def write(self, text):
        data = text.encode('utf-8', 'surrogateescape')
        try:
            while data:
                data = data[os.write(self.number, data):]
        except OSError:
            raise WriteFault from None

    def line(self, text):
        self.write(text + '\n')

    def is_terminal(self):
        return os.isatty(self.number)

    def columns(self, otherwise):
        """How many columns its terminal has; `otherwise` where it is none or does not say."""
        try:
            return os.get_terminal_size(self.number).columns or otherwise
        except OSError:
            return otherwise


OUT, NOTES = Stream(1), Stream(2)


def keep_closed():
    """A closed stream is one that fails. Its number is taken, since the next file that is opened would get it."""
    for number, way in ((0, os.O_WRONLY), (1, os.O_RDONLY), (2, os.O_RDONLY)):
        try:
            os.fstat(number)
        except OSError:
            os.open(os.devnull, way)


def told(line, status):
    """The status of an end that is noted in a line."""
    try:
        NOTES.line(line)
    except WriteFault:
        return WRITE
    return status


def asked_to_end(number, _frame):
    """Makes an exception of the first signal, so that copies of files are removed; more of it change nothing."""
    signal.signal(number, signal.SIG_IGN)
    if number == signal.SIGINT:
        raise KeyboardInterrupt
    sys.exit(SIGNALLED + number)


def keep_signals():
    """What is ignored stays so, as by nohup."""
    for number in (signal.SIGINT, signal.SIGTERM, signal.SIGHUP):
        if signal.getsignal(number) is signal.SIG_DFL:
            signal.signal(number, asked_to_end)


def run(main):
    """Ends the process with the status of `main`, which takes the words."""
    keep_closed()
    keep_signals()
    try:
        status = main(sys.argv[1:])
    except WriteFault:
        status = told('failed: write', WRITE)
    except MemoryError:
        status = told('failed: memory', MEMORY)
    except SystemExit as end:
        status = end.code
    except KeyboardInterrupt:
        # A shell that calls this in a loop goes on, unless it is the signal that ends this.
        signal.signal(signal.SIGINT, signal.SIG_DFL)
        os.kill(os.getpid(), signal.SIGINT)
    # At once, since a thread may wait for a file that never comes. Nothing is left to be written.
    os._exit(status)
