"""Inputs that nobody meant: seeds, and what may be done to them. The dice that are handed in make every choice."""
import hashlib
import hmac
import os
import random
import re
import struct

import made_schedules
import rolls
import schedules

DATA = os.path.join(schedules.TOP, 'crates', 'test_runs', 'data')
LARGEST_SEED, LARGEST_INPUT, MOST_LINES = 20000, 100000, 1200
NUMBERS = [0, 1, 2, 7, 11, 12, 41, 63, 64, 65, 76, 118, 255, 256, 257, 300, 301, 1000, 1024, 4096, 8240, 16384]
NUMBERS += [16385, 262144, 262145, 10**6, 2**31, 2**32 - 1, 2**32, 2**53]
NUMBERS += [2**62, 2**63 - 1, 2**63, 2**64 - 1, 2**64, 10**40]
NUMBERS += [4 * 10**12, 4 * 10**12 + 1, -1, -(2**63), -(2**63) - 1]
EDGES = [b'%d' % number for number in NUMBERS]
EDGES += [b'01', b'+1', b'1_000', b'0x40', b'1e3', b'1.0', b'nan', b'-0', b'-', b',']
EDGES += [b'1,', b'1,,2', b'#', b'""', b"''"]
EDGES += [b'true', b'[]', b'{}', b'[[', b'"""', b'2026-01-01', b'\xff\xfe', b'\xef\xbb\xbf', b'\0', b'\r', b'"\\u0000"']
EDGES += [b'"a\\nb"', b'"a\\tb"', b'a.b', b"'a b'", b'"\\"']
EDGES += [b'root', b'none', b'full', b'all', b'xl-schedule', b'f' * 64, b'F' * 64, b'0' * 65, b'\xe2\x82\xac', b'\\']
ADDRESSES = [b'127.0.0.1:1', b'[::1]:1', b'127.0.0.1:0', b'127.0.0.1:65535', b'127.0.0.1:65536', b'127.0.0.1', b'']
ADDRESSES += [b'localhost:1', b'::1:1', b'127.0.0.1:01', b'0127.0.0.1:1', b'[::1%lo]:1', b'127.0.0.1:1 ', b'[::1]']
ADDRESSES += [b'127.0.0.256:1', b'x' * 300, b'127.0.0.1:-1', b'127.0.0.1:', b':1', b'[127.0.0.1]:1', b'\xc3\xa9:1']
KEYS = [b'a', b'""', b'"a b"', b'"a\\nb"', b'"a\\tb"', b'"\\u0000"', b'"\\U0001F600"', b"'a.b'"]
KEYS += [b'a.b', b'peer.number', b'"me"']
RUN_REFUSED = [b'-1', b'1000000000001', b'"1"', b'1.5', b'true', b'[]', b'99999999999999999999', b'']
RUN_SHORT = [b'1', b'1', b'2', b'20']
HOSTS = re.compile(rb'\d+\.\d+\.\d+\.\d+|[0-9a-fA-F]*:[0-9a-fA-F:]*:[0-9a-fA-F:.]*')


class Seeds:
    """The inputs that the repository has, by kind."""

    def __init__(self):
        stories = os.path.join(schedules.TOP, 'schedules')
        rows = [os.path.join(DATA, name) for name in sorted(os.listdir(DATA)) if name.endswith('.in')]
        told = [os.path.join(stories, name) for name in sorted(os.listdir(stories)) if name.endswith('.xl')]
        texts = [(os.path.basename(path), self.read(path)) for path in told + rows]
        texts = [(name, text) for name, text in texts if len(text) <= LARGEST_SEED]
        self.schedules = [text for _, text in texts if text.startswith(b'xl-schedule')]
        self.merges = [text for _, text in texts if text.startswith(b'xl-publish')]
        self.journals = [text for _, text in texts if text.startswith(b'xl-journal')]
        self.streams = [text for name, text in texts if name.startswith('show_')]
        self.settings = [text for name, text in texts if name.startswith('node_') and text.startswith(b'me = ')]

    @staticmethod
    def read(path):
        with open(path, 'rb') as file:
            return file.read(LARGEST_SEED + 1)

    def schedule(self, dice):
        chance = dice.random()
        if chance < 0.5:
            return dice.choice(self.schedules)
        if chance < 0.9:
            count = dice.choice((20, 64)) if dice.random() < 0.03 else None
            return made_schedules.schedule(made_schedules.RandomSchedule(dice, count).lines).encode()
        return made_schedules.generated(dice.randint(1, 2)).encode()

    def votes(self, dice):
        """A schedule in which nodes favor amendments and a fee."""
        lines = self.schedule(dice).split(b'\n')
        for _ in range(dice.randint(1, 4)):
            lines.insert(dice.randint(len(lines) // 2, len(lines)), favor(dice))
        return b'\n'.join(lines)

    def merge(self, dice):
        if dice.random() < 0.5:
            return dice.choice(self.merges)
        return b'\n'.join([b'xl-publish 1', *(publishers_line(dice) for _ in range(dice.randint(1, 12)))])

    def journal(self, dice):
        return dice.choice(self.journals)

    def several_journals(self, dice):
        return b''.join(self.journal(dice) for _ in range(dice.randint(1, 3)))

    def stream(self, dice):
        if dice.random() < 0.3:
            return dice.choice(self.streams)
        return b''.join(frame(dice) for _ in range(dice.randint(1, 6)))

    def setting(self, dice):
        """Settings without the key run_ms, and with a word where addresses stand."""
        lines = dice.choice(self.settings).split(b'\n')
        lines = [b'dial = "ADDRESS"' if line.startswith(b'dial') else line for line in lines]
        lines = [b'listen = "ADDRESS"' if line.startswith(b'listen') else line for line in lines]
        more = [b'validating = false', b'limit = 100', b'turns = 50', b'heartbeat_ms = 100', b'submit = []']
        more += [b'journal = true', b'roll = ["5850"]', b'threshold = 1', b'status = "xl.status"', b'rolls = "none"']
        more += [b'journal_file = "xl.journal"', b'journal_bytes = 300', b'journal_bytes = 0']
        more += [b'journal_keys = false', b'submit_at = "127.0.0.1:0"', b'submit_at = "0.0.0.0:1"']
        more += [b'publisher = [{ number = 1, key = "%s" }]' % (b'01' * 32)]
        lines = dice.sample(more, dice.randint(0, 2)) + [line for line in lines if not line.startswith(b'run_ms')]
        return b'\n'.join(lines)


def edge(dice, largest=2**32 - 1):
    """A number that fits, often one at an edge."""
    return dice.choice([number for number in NUMBERS if 0 <= number <= largest])


def any_digits(dice):
    """32 bytes that are an id."""
    return bytes([dice.choice((0, 17, 255))] * 31 + [dice.randrange(256)])


def favor(dice):
    """A node's vote on amendments and a fee."""
    ids = sorted({any_digits(dice).hex().encode() for _ in range(dice.choice((0, 1, 1, 2, 5)))})
    return b'favor %d %d %s' % (dice.randint(1, 5), edge(dice), b','.join(ids) or b'-')


def publishers_key(publisher):
    return hashlib.sha256(b'key of publisher %d' % publisher).digest()


def publishers_line(dice):
    """A line that `merge` reads, often a roll with a right tag."""
    publisher = dice.randint(1, 3)
    if dice.random() < 0.3:
        return b'publisher %d %s' % (publisher, publishers_key(publisher).hex().encode())
    if dice.random() < 0.3:
        return dice.choice((b'list', b'threshold %d' % dice.randint(1, 3), b'at %d' % edge(dice)))
    members = tuple(sorted(dice.sample(range(1, 65), dice.choice((1, 3, 5, 64)))))
    first = edge(dice, 5000)
    roll = rolls.Roll(publisher, edge(dice), first, first + dice.choice((0, 1, 5000)), members)
    return b'roll ' + rolls.written(roll, publishers_key(publisher)).hex().encode()


def body(dice, kind):
    any_id = lambda: any_digits(dice)
    if kind == 1:
        return any_id() + any_id() + struct.pack('>III', edge(dice), edge(dice), edge(dice))
    if kind == 2:
        return any_id() + struct.pack('>IIB', edge(dice), edge(dice), dice.choice((0, 1, 1, 2)))
    if kind == 3:
        return struct.pack('>IQ', edge(dice), 10**17) + any_id() + bytes(64) + struct.pack('>IIBB', 0, 30, 30, 0)
    if kind == 4:
        ids = sorted({any_id() for _ in range(dice.choice((0, 1, 2, 3, 40)))})
        return struct.pack('>H', len(ids)) + b''.join(ids)
    return any_id()


def frame(dice, sender=None, receiver=None):
    """A frame with the tag that a schedule's keys give it."""
    sender, receiver = sender or dice.randint(1, 5), receiver or dice.randint(1, 5)
    version, kind = dice.choice(((1, dice.randint(1, 5)), (2, 2)))
    said = body(dice, kind) + any_digits(dice) * (version == 2)
    signed = struct.pack('>2sBBHII', b'XL', version, kind, len(said), sender, receiver) + said
    key = hashlib.sha256(b'XLKY' + struct.pack('>II', *sorted((sender, receiver)))).digest()
    return signed + hmac.new(key, signed, hashlib.sha256).digest()


def cut_out(dice, text):
    """Where a slice of the text begins and ends."""
    first = dice.randint(0, len(text))
    return first, min(len(text), first + dice.choice((1, 1, 2, 4, 14, 32, 46, 87, 1000)))


def flip_bit(dice, text, other):
    place = dice.randrange(max(1, len(text)))
    return text[:place] + bytes([byte ^ 1 << dice.randrange(8) for byte in text[place : place + 1]]) + text[place + 1 :]


def put_byte(dice, text, other):
    place = dice.randint(0, len(text))
    return text[:place] + bytes([dice.choice((0, 9, 10, 13, 32, 34, 35, 44, 88, 127, 255))]) + text[place:]


def drop_slice(dice, text, other):
    first, last = cut_out(dice, text)
    return text[:first] + text[last:]


def repeat_slice(dice, text, other):
    first, last = cut_out(dice, text)
    return text[:last] + text[first:last] * dice.choice((1, 1, 2, 10)) + text[last:]


def truncate(dice, text, other):
    return text[: dice.randint(0, len(text))]


def splice(dice, text, other):
    return truncate(dice, text, other) + other[dice.randint(0, len(other)) :]


def by_lines(change):
    """A mutation of the text's lines, in place."""

    def changed(dice, text, other):
        lines = text.split(b'\n')
        change(dice, lines, other.split(b'\n'))
        return b'\n'.join(lines)

    return changed


def swap_lines(dice, lines, others):
    one, two = dice.randrange(len(lines)), dice.randrange(len(lines))
    lines[one], lines[two] = lines[two], lines[one]


def repeat_lines(dice, lines, others):
    first = dice.randrange(len(lines))
    lines[first:first] = lines[first : first + dice.randint(1, 8)] * dice.choice((1, 1, 2, 20))


def drop_lines(dice, lines, others):
    first = dice.randrange(len(lines))
    del lines[first : first + dice.choice((1, 1, 1, 3, 10))]
    lines or lines.append(b'')


def take_line(dice, lines, others):
    lines.insert(dice.randint(0, len(lines)), dice.choice(others))


def put_frame(dice, lines, others):
    lines.insert(dice.randint(0, len(lines)), b'raw %d %s' % (dice.randint(1, 5), frame(dice).hex().encode()))


def put_key(dice, lines, others):
    lines.insert(dice.randint(0, len(lines)), dice.choice(KEYS) + b' = 1')


def lengthen_line(dice, lines, others):
    place, length = dice.randrange(len(lines)), dice.choice((33, 65, 1000, 16999, 17000, 17001, 17002))
    lines[place] += dice.choice((b' ', b'a', b' 1', b',1', b'\xff')) * (length - len(lines[place]))


def change_token(dice, lines, others):
    place = dice.randrange(len(lines))
    tokens, there = lines[place].split(), dice.choice(lines + others).split()
    if tokens:
        tokens[dice.randrange(len(tokens))] = dice.choice(there + EDGES[: 1 + len(there)] + [dice.choice(EDGES)])
        lines[place] = b' '.join(tokens)


def change_alike(dice, lines, others):
    """Puts for one token the token that stands at its place in another line of the same word."""
    place = dice.randrange(len(lines))
    tokens = lines[place].split()
    alike = [line.split() for line in lines + others if tokens and line.split()[:1] == tokens[:1]]
    if len(tokens) > 1:
        column = dice.randrange(1, len(tokens))
        tokens[column] = dice.choice([there[column] for there in alike if len(there) > column])
        lines[place] = b' '.join(tokens)


def change_number(dice, lines, others):
    place = dice.randrange(len(lines))
    numbers = list(re.finditer(rb'\d+', lines[place]))
    if numbers:
        first, last = dice.choice(numbers).span()
        near = b'%d' % max(0, int(lines[place][first : min(last, first + 15)]) + dice.choice((-1, 1, 1000)))
        lines[place] = lines[place][:first] + dice.choice((near, dice.choice(EDGES))) + lines[place][last:]


BYTES = [flip_bit, put_byte, drop_slice, repeat_slice, truncate, splice]
LINES = [swap_lines, repeat_lines, drop_lines, take_line, change_token, change_alike, change_alike, change_number]
OF_BYTES = BYTES + [flip_bit] * 4
OF_LINES = [by_lines(change) for change in LINES * 3 + [lengthen_line]] + BYTES
OF_SCHEDULES = OF_LINES + [by_lines(put_frame)] * 3
OF_SETTINGS = OF_LINES + [by_lines(put_key)] * 3


def mutate(dice, text, other, mutations):
    for _ in range(dice.choice((0, 1, 1, 1, 1, 2, 2, 3, 5, 8))):
        text = dice.choice(mutations)(dice, text, other)[:LARGEST_INPUT]
    return b'\n'.join(text.split(b'\n')[:MOST_LINES])


def settle(dice, text):
    """Gives settings a run that is short or refused, and addresses of this machine alone."""
    text = HOSTS.sub(b'host', text)
    while b'ADDRESS' in text:
        text = text.replace(b'ADDRESS', dice.choice(ADDRESSES), 1)
    run = dice.choice(RUN_REFUSED) if dice.random() < 0.05 else dice.choice(RUN_SHORT)
    return b'run_ms = %s\n' % run + text


class Inputs:
    """The case of a number: a command and its input. The same seed and number give the same case."""

    def __init__(self, seed):
        self.seed, self.seeds = seed, Seeds()

    def make(self, number):
        dice = random.Random('%d/%d' % (self.seed, number))
        commands = ('replay', 'lists', 'show', 'node', 'merge', 'audit', 'flags', 'negative', 'blame')
        command = dice.choices(commands, (12, 3, 4, 2, 3, 3, 3, 2, 3))[0]
        if command == 'node':
            text = mutate(dice, self.seeds.setting(dice), self.seeds.setting(dice), OF_SETTINGS)
            return command, settle(dice, text)
        if command == 'show' or dice.random() < 0.02:
            return command, mutate(dice, self.seeds.stream(dice), self.seeds.stream(dice), OF_BYTES)
        makes = {'merge': self.seeds.merge, 'audit': self.seeds.journal, 'flags': self.seeds.votes}
        makes['blame'] = self.seeds.several_journals
        if command in makes:
            make = makes[command]
            return command, mutate(dice, make(dice), make(dice), OF_LINES)
        text = self.seeds.schedule(dice)
        if command == 'lists' and dice.random() < 0.8:
            lists = (b'xl-schedule', b'node', b'liar', b'limit', b'at', b'name')
            text = b'\n'.join(line for line in text.split(b'\n') if line.split(b' ')[0] in lists)
        return command, mutate(dice, text, self.seeds.schedule(dice), OF_SCHEDULES)
