"""Counts instructions by valgrind, and the memory of a run by the system's resource usage."""
import re
import shutil
import subprocess
import sys
import tempfile

import command

TOTAL = re.compile(r'^(?:summary|totals): (\d+)', re.MULTILINE)
QUIET = dict(stdout=subprocess.DEVNULL, stderr=subprocess.DEVNULL)
# Starts a program that says nothing, and says what memory it held.
STARTER = '''
import os, sys
nowhere = os.open(os.devnull, os.O_WRONLY)
quiet = [(os.POSIX_SPAWN_DUP2, nowhere, 1), (os.POSIX_SPAWN_DUP2, nowhere, 2)]
process = os.posix_spawnp(sys.argv[1], sys.argv[1:], os.environ, file_actions=quiet)
print(os.wait4(process, 0)[2].ru_maxrss)
'''


class Uncounted(Exception):
    """A run that gave no count, and why."""


def needs_valgrind():
    if not shutil.which('valgrind'):
        command.stop('there is no valgrind on the path, by which instructions are counted')


def callgrind(counts, words, text, *options):
    """Runs the program under callgrind, which writes its counts to this path; the status of the run."""
    words = ['valgrind', '--tool=callgrind', '--callgrind-out-file=' + counts, *options, *words]
    return subprocess.run(words, input=text.encode('latin-1'), **QUIET).returncode


def total_of(path):
    try:
        with open(path, encoding='utf-8', errors='replace') as file:
            return int(TOTAL.search(file.read())[1])
    except (FileNotFoundError, TypeError):
        return None


def instructions(words, text='', may_end=(0,)):
    """All instructions of a run, which must end with one of these statuses."""
    with tempfile.TemporaryDirectory(prefix='measure-') as folder:
        status = callgrind(folder + '/counts', words, text)
        total = total_of(folder + '/counts')
    if status not in may_end:
        raise Uncounted('%s ended with status %s' % (' '.join(words), status))
    if total is None:
        raise Uncounted('valgrind counted nothing of %s' % ' '.join(words))
    return total


def calls(words, function, count):
    """What each of the first calls of this function takes in a run."""
    with tempfile.TemporaryDirectory(prefix='measure-') as folder:
        only = ('--collect-atstart=no', '--toggle-collect=' + function, '--dump-after=' + function)
        callgrind(folder + '/counts', words, '', *only)
        found = [total_of('%s/counts.%d' % (folder, number)) for number in range(1, count + 1)]
    if None in found:
        raise Uncounted('%s calls %s less than %d times, or not by that name' % (' '.join(words), function, count))
    return found


def memory(words, text=''):
    """The most memory that a run held, in kilobytes. A process begins with what its starter holds, so a small one starts
    it, and some 9,000 are the least that is seen."""
    with tempfile.TemporaryFile() as given:
        given.write(text.encode('latin-1'))
        given.seek(0)
        words = [sys.executable, '-S', '-c', STARTER, *words]
        return int(subprocess.run(words, stdin=given, stdout=subprocess.PIPE, check=True).stdout)
