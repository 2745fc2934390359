"""How far the proofs of tools/build are: which crates are proved, in which order, and about how long the rest takes."""
import contextlib
import heapq
import os
import re
import time

TOP = os.path.dirname(os.path.dirname(os.path.dirname(os.path.realpath(__file__))))
PROGRAM = 'xl_node'
FOLDER = os.path.join(TOP, 'crates', PROGRAM)
OUT = os.path.join(FOLDER, 'out')
STATE = os.path.join(OUT, 'build.state')  # how far they are, or how they ended
DONE = os.path.join(OUT, 'build.done')  # the crates that were proved, each with the time of its newest source
LIB = os.path.join(TOP, 'tools', 'lib')
WEIGHTS = os.path.join(LIB, 'weights')
SAID_EACH = 30
MEMORY_EACH = 2.5e9
KEPT_TAKES = 2  # seconds for a crate that was proved before
UNSTARTED = 'xl: the proofs were not started: tools/build starts them'


def read_crates():
    """For each crate of crates.txt those of the repository that it stands on."""
    below = {}
    with open(os.path.join(TOP, 'crates.txt'), encoding='utf-8') as file:
        for line in file:
            words, _, stands_on = line.partition('#')[0].partition(':')
            if words.split():
                below[words.split()[0]] = stands_on.split()
    return {name: [it for it in names if it in below] for name, names in below.items()}


def all_below(name, below):
    found = []
    for it in below[name]:
        found += [crate for crate in [*all_below(it, below), it] if crate not in found]
    return found


def newest(names):
    """The time of the newest file that a check of these crates reads."""
    times = [os.stat(os.path.join(TOP, 'crates.txt')).st_mtime_ns]
    for name in names:
        for folder, folders, files in os.walk(os.path.join(TOP, 'crates', name)):
            folders[:] = [it for it in folders if it != 'out']
            times += [os.stat(os.path.join(folder, it)).st_mtime_ns for it in files if it.endswith(('.rt', '.antt'))]
    return max(times)


def read_words(path):
    """The pairs of a file of lines `NAME NUMBER`; none where it isn't there."""
    with contextlib.suppress(FileNotFoundError, ValueError):
        with open(path, encoding='utf-8') as file:
            return {name: int(number) for name, number in (line.split() for line in file if line[0] != '#')}
    return {}


def lanes():
    """How many crates are proved at a time, by the processors and the memory that are free for this."""
    free = float('inf')
    with contextlib.suppress(OSError, AttributeError), open('/proc/meminfo', encoding='ascii') as file:
        free = int(re.search('MemAvailable: *([0-9]+)', file.read())[1]) * 1024
    return int(max(1, min(len(os.sched_getaffinity(0)), free // MEMORY_EACH)))


def chains(names, below, seconds):
    """For each of these crates how long it takes and, one after the other, the longest of the rows of crates above it."""
    chain = {}
    for name in sorted(names, key=lambda it: -len(below[it])):
        chain[name] = seconds[name] + max((chain[it] for it in chain if name in below[it]), default=0)
    return chain


def takes(names, below, seconds, at_once):
    """How long these crates take if, of those that can begin, the one with the longest chain is always begun first."""
    chain, running, now = chains(names, below, seconds), [], 0
    waiting = sorted(names, key=lambda it: -chain[it])
    left = set(waiting)
    while left:
        for name in [it for it in waiting if left.isdisjoint(below[it])][: at_once - len(running)]:
            heapq.heappush(running, (now + seconds[name], name))
            waiting.remove(name)
        now, ended = heapq.heappop(running)
        left.remove(ended)
    return now


class Progress:
    """What is said while the crates are proved: those with the longest chain of crates above them come first."""

    def __init__(self, out, at_once):
        below = read_crates()
        self.below = {name: all_below(name, below) for name in [*all_below(PROGRAM, below), PROGRAM]}
        self.order = list(self.below)
        self.newest = {name: newest([name, *self.below[name]]) for name in self.order}
        self.kept = {name for name, time_of in read_words(DONE).items() if self.newest.get(name) == time_of}
        weights = read_words(WEIGHTS)
        usual = sum(weights.values()) // max(1, len(weights)) or 100
        self.seconds = {it: KEPT_TAKES if it in self.kept else weights.get(it, usual) for it in self.order}
        self.chain = chains(self.order, self.below, self.seconds)
        self.order.sort(key=lambda name: -self.chain[name])
        self.heard, self.done, self.took = set(), set(self.kept), {}
        self.at_once, self.out, self.start = at_once, out, time.monotonic()
        self.first = self.weighed_left()
        self.last_end, self.ended, self.pace = self.start, False, 1
        self.said, self.said_at = None, 0

    def hear(self, line):
        """A line of rt: that a crate is done. It comes for each that was proved before, too."""
        name = line[3:].strip()
        if line.startswith('== ') and name in self.below and name not in self.heard:
            now = time.monotonic()
            self.took[name] = now - self.last_end
            self.heard.add(name)
            self.done.add(name)
            self.last_end = now
            gone = self.first - self.weighed_left()
            if gone > 60:
                self.pace = min(8, max(0.3, (now - self.start) / gone))

    def keep(self):
        """Writes which crates were proved, once their statuses are known: those that rt calls ok."""
        with open(DONE, 'w', encoding='utf-8') as file:
            file.writelines('%s %d\n' % (it, self.newest[it]) for it in self.order if it in self.done)

    def weighed_left(self):
        waiting = [name for name in self.order if name not in self.heard]
        return takes(waiting, self.below, self.seconds, self.at_once)

    def left(self):
        """About how many minutes are left, by the weights and by how fast it went so far."""
        seconds = self.weighed_left() * self.pace - min(time.monotonic() - self.last_end, 300)
        return 'about %d minutes left' % round(seconds / 60) if seconds >= 90 else 'about a minute left'

    def doing(self):
        if len(self.heard) == len(self.order):
            return 'building the program'
        waiting = [name for name in self.order if name not in self.heard]
        begun = [name for name in waiting if self.heard.issuperset(self.below[name])][: self.at_once]
        return 'proving ' + ' and '.join(begun)

    def so_far(self):
        return '%d:%02d' % divmod(int(time.monotonic() - self.start), 60)

    def line(self):
        return 'xl: %s; %d of %d crates done, %s' % (self.doing(), len(self.done), len(self.order), self.left())

    def say(self):
        """On a terminal the line is written anew; else it comes where it changes, and now and then."""
        line = self.line()
        write_state(line)
        if self.out.isatty():
            self.out.write('\r\x1b[K%s' % line)
        elif self.doing() != self.said or time.monotonic() - self.said_at >= SAID_EACH:
            self.out.write(line + '\n')
            self.said, self.said_at = self.doing(), time.monotonic()
        self.out.flush()

    def end(self, words):
        line = 'xl: %s after %s' % (words, self.so_far())
        self.out.write('%s%s\n' % ('\r\x1b[K' if self.out.isatty() else '', line))
        self.out.flush()


def write_state(line):
    with open(STATE, 'w', encoding='utf-8') as file:
        file.write(line + '\n')


def read_state():
    try:
        with open(STATE, encoding='utf-8') as file:
            return file.read().strip() or UNSTARTED
    except FileNotFoundError:
        return UNSTARTED


def keep_saying(progress, is_over):
    with contextlib.suppress(OSError):
        progress.say()
        while not is_over.wait(1):
            progress.say()
