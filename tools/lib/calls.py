"""What single calls take: of the tests of a crate, and of the program test_in_memory, which are proved and built first."""
import os
import subprocess

import command
import counting

CRATES = os.path.join(os.path.dirname(os.path.dirname(os.path.dirname(os.path.realpath(__file__)))), 'crates')
MORE = 100000  # by how many calls two runs differ
THREADS = (0, 1, 2, 3)  # how often the calls are shared out to two threads
# Of seven cores, each of which has its timer once a second: the number of a heartbeat, and what it is.
HEARTBEATS = (
    (1, 'a heartbeat of an open round that stays open'), (57, 'one that closes, with one transaction pending'),
    (64, 'one below 1,950 ms'), (71, 'one that is ready'),
)
# A name, the test of xl_tags, and the function of which the test's first call is counted.
TAGS = (
    ('a compression', 'tests::tells_a_right_tag_of_anyone', 'sha2::block256::compress'),
    ('a tag', 'tests::tells_a_right_tag_of_anyone', 'xl_tags::macs::Pads::tag'),
    ('a seal', 'tests::tells_a_right_tag_of_anyone', 'xl_tags::tests::try_seal'),
    ('an opening', 'tests::a_frame_is_sealed_and_opened', 'xl_tags::tests::try_open'),
)


def made(crate, *words):
    """The program of a crate, or of its tests, proved and built."""
    folder = os.path.join(CRATES, crate)
    if subprocess.run(['rt', *words], cwd=folder, stdin=subprocess.DEVNULL, stdout=subprocess.DEVNULL).returncode:
        command.stop('%s can\'t be proved and built' % crate, 1)
    return os.path.join(folder, 'out', crate + ('_tests' if words[0] == 'test' else ''))


def line(name, count):
    return '%s: %s instructions' % (name, '{:,}'.format(count))


def of_tags():
    """A frame of 87 bytes. A seal has the test of what it requires in it; an opening the split, and a list's keys."""
    tests = made('xl_tags', 'test')
    for name, test, function in TAGS:
        yield line(name, counting.calls([tests, test], function, 1)[0])


def of_heartbeats():
    """Of the first core of seven, from an open round to the ledger that is agreed on."""
    words = [made('test_in_memory', 'run'), 'seven']
    counts = counting.calls(words, 'xl_rounds::round::Round::heartbeat', HEARTBEATS[-1][0])
    for number, name in HEARTBEATS:
        yield line(name, counts[number - 1])


def of_sets():
    """What `update` does besides, the threshold of the percent, is made part of its caller."""
    program, update = made('test_in_memory', 'run'), 'xl_disputes::disputes::Disputes::update_above'
    yield line('opening the disputes', counting.calls([program, 'alike', '1'], 'xl_disputes::disputes::Disputes::open', 1)[0])
    for members in ('1', '7', '64'):
        count = counting.calls([program, 'alike', members], update, 1)[0]
        yield line('all sets alike, 32 ids, members: ' + members, count)
    for members in ('1', '7', '64'):
        gone, again = counting.calls([program, 'different', members], update, 2)
        yield line('all sets different, 256 ids each, members: %s: our set goes' % members, gone)
        yield line('and again', again)


def of_votes():
    """The members vote for the last ledgers of a chain, one each, upwards; the last member's vote is counted."""
    program = made('test_in_memory', 'run')
    count = lambda *words: counting.instructions([program, *map(str, words)])
    for form in ('plain', 'trie'):
        for members in (7, 64):
            for ledgers in (100, 100000):
                before, voted = (count(form, members, ledgers, votes, 0) for votes in (members - 1, members))
                asked = count(form, members, ledgers, members, 1)
                told = form, members, ledgers, voted - before, asked - voted
                yield '%s, %d votes, %d ledgers: a vote %d, a preferred %d instructions' % told


def of_turns():
    """The core's own call and the entry's memory are counted alone, and taken off."""
    program = made('test_in_memory', 'run')

    def each(kind, halvings=0):
        few, many = (counting.instructions([program, kind, str(times), str(halvings)]) for times in (MORE, 2 * MORE))
        return (many - few) // MORE

    core, entry = each('core'), each('entries')
    yield 'the core\'s own call: %d instructions, an entry\'s memory: %d instructions' % (core, entry)
    for halvings in THREADS:
        turn = each('store', halvings)
        yield '%d threads: %d instructions a turn, %d of them its own' % (1 << halvings, turn, turn - core - entry)
    for halvings in THREADS:
        process = subprocess.Popen([program, 'store', str(8 * MORE), str(halvings)], **counting.QUIET)
        _, process.returncode, used = os.wait4(process.pid, 0)
        told = 1 << halvings, used.ru_utime, used.ru_stime, used.ru_nvcsw
        yield '%d threads: %.2f + %.2f seconds for 800,000 turns, %d sleeps' % told


KINDS = {'tags': of_tags, 'heartbeats': of_heartbeats, 'sets': of_sets, 'votes': of_votes, 'turns': of_turns}
