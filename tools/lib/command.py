"""How a tool begins and ends: one line, and never a traceback, if a write fails or somebody interrupts it.

A tool imports this module before all others, so that an interrupt while those are loaded is one line too."""
import io
import math
import os
import signal
import sys
import time

INTERRUPTED = 130
FIRST_TOLD = 10  # the second from which on long work says how far it is


def stop(why, status=2):
    """Ends the tool with its name and the cause."""
    print('%s: %s' % (os.path.basename(sys.argv[0]), why), file=sys.stderr)
    sys.exit(status)


def leave(why, status):
    """Ends at once with one line. What a failed write left in the buffer is not tried again."""
    try:
        print('%s: %s' % (os.path.basename(sys.argv[0]), why), file=sys.stderr, flush=True)
    except OSError:
        pass
    os._exit(status)


def take_ends_as_interrupts():
    """A signal to end, as `timeout` and Slurm send it, is an interrupt: what was found is still written."""

    def interrupt(number, frame):
        raise KeyboardInterrupt

    signal.signal(signal.SIGTERM, interrupt)


class Told:
    """When the next line of how far a long work is may be said: a second behind the last, in whatever part of the work.

    Of what no tool runs, as in a test, nothing is said."""

    next = math.inf


def told_on_the_way(items, what):
    """The items; from the tenth second on it is said once a second how many of them are through."""
    for number, item in enumerate(items):
        if number % 64 == 0 and time.monotonic() >= Told.next:
            Told.next = time.monotonic() + 1
            told = '%s: %s of %s %s' % (os.path.basename(sys.argv[0]), format(number, ','), format(len(items), ','), what)
            print(told, file=sys.stderr, flush=True)
        yield item


def write(text):
    """Writes the text to standard output, in UTF-8, all of it or with an error. Nothing stays in a buffer."""
    with io.FileIO(sys.stdout.fileno(), 'w', closefd=False) as out:
        left = memoryview(text.encode('utf-8', 'surrogateescape') if isinstance(text, str) else text)
        while left:
            left = left[out.write(left) :]


def write_file(path, text):
    """Writes the file beside its place and then renames it, so that a failed write leaves what was there."""
    beside = path + '.new'
    try:
        with open(beside, 'w', encoding='latin-1', newline='') as file:
            file.write(text)
        os.replace(beside, path)
    except OSError as error:
        if os.path.exists(beside):
            os.unlink(beside)
        return '%s can\'t be written: %s' % (path, error.strerror)
    return None


def run(main):
    """Ends the tool with the status that its main function gives."""
    Told.next = time.monotonic() + FIRST_TOLD
    try:
        try:
            status = main()
        except SystemExit as ended:
            status = ended.code
        sys.stdout.flush()
    except KeyboardInterrupt:
        leave('interrupted', INTERRUPTED)
    except OSError as error:
        what = error.filename if error.filename is not None else 'output failed'
        leave('%s: %s' % (what, error.strerror or error), 2)
    sys.exit(status)


def told_in_one_line(kind, error, trace):
    """What is said of an error that no tool expects: of an interrupt one line."""
    if issubclass(kind, KeyboardInterrupt):
        leave('interrupted', INTERRUPTED)
    sys.__excepthook__(kind, error, trace)


sys.excepthook = told_in_one_line
