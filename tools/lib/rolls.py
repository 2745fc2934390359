"""Rolls: the lists that publishers hand out, as bytes. docs/FORMATS.md has their layout and why one is refused."""
import datetime
import hashlib
import hmac
import re
import struct
from dataclasses import dataclass

HEAD, TAG = struct.Struct('>2sBIIIIH'), 32
PUBLISHERS, MEMBERS, MOST_MEMBERS, GREATEST = range(1, 17), range(1, 65), 64, 2**32 - 1
FIRST_DAY = datetime.datetime(2000, 1, 1, tzinfo=datetime.timezone.utc)
# why a roll is refused; {0} and {1} are the values
REFUSALS = {
    49: 'the bytes begin no roll: byte {0} is another than it must be',
    50: 'the roll says version {0}, and only 1 is known',
    51: 'the roll says that it has {0} members, and it may have 1 to 64',
    52: 'the bytes end within the roll, and {0} lack',
    53: '{0} bytes follow the roll',
    54: 'publisher {0} has no key here',
    55: 'the tag isn\'t the one of the publisher\'s key, so someone else made the roll or changed it',
    56: 'the member at place {0}, counted from 0, isn\'t a number from 1 to 64 above the one before',
    57: 'the roll ends in second {1}, which isn\'t after its first, {0}',
}


# the most bytes of a file of rolls that a node looks at, and the most digits of a line
MOST_BYTES, MOST_DIGITS = 32768, 2 * (HEAD.size + 4 * MOST_MEMBERS + TAG)


@dataclass(frozen=True)
class Roll:
    """What a publisher says: these members, from a second on until another."""

    publisher: int
    sequence: int
    first: int
    until: int
    members: tuple


def tag_of(key, signed):
    return hmac.new(key, signed, hashlib.sha256).digest()


def written(roll, key):
    """The bytes of the roll, sealed with the key."""
    members = struct.pack('>%dI' % len(roll.members), *roll.members)
    head = HEAD.pack(b'XP', 1, roll.publisher, roll.sequence, roll.first, roll.until, len(roll.members))
    return head + members + tag_of(key, head + members)


def read(bytes_, key_of):
    """The roll of the bytes, or the code and the values of the first cause to refuse it.

    `key_of` gives the key of a publisher, or None. If it is None itself, no tag is tested."""
    found = cut_wrong(bytes_)
    if found:
        return None, found
    _, _, *words, count = HEAD.unpack(bytes_[: HEAD.size])
    roll = Roll(*words, struct.unpack('>%dI' % count, bytes_[HEAD.size : -TAG]))
    if key_of:
        key, told = key_of(roll.publisher), bytes_[-TAG:]
        if key is None:
            return None, (54, roll.publisher)
        if not hmac.compare_digest(told, tag_of(key, bytes_[:-TAG])):
            return None, (55, told.hex(), tag_of(key, bytes_[:-TAG]).hex())
    return (None, found) if (found := wrong(roll)) else (roll, None)


def cut_wrong(bytes_):
    """The first cause that lies in the mark, the version, the count or the length."""
    for place, byte in enumerate(b'XP'):
        if bytes_[place : place + 1] not in (b'', bytes([byte])):
            return 49, place
    if bytes_[2:3] not in (b'', b'\1'):
        return 50, bytes_[2]
    if len(bytes_) < HEAD.size:
        return 52, HEAD.size - len(bytes_)
    count = int.from_bytes(bytes_[HEAD.size - 2 : HEAD.size], 'big')
    if not 0 < count <= MOST_MEMBERS:
        return 51, count
    size = HEAD.size + 4 * count + TAG
    if len(bytes_) != size:
        return (52, size - len(bytes_)) if len(bytes_) < size else (53, len(bytes_) - size)
    return None


def wrong(roll):
    """The first cause that lies in the members or the seconds."""
    for place, member in enumerate(roll.members):
        if member not in MEMBERS or (place and member <= roll.members[place - 1]):
            return 56, place
    return None if roll.first < roll.until else (57, roll.first, roll.until)


def second_of(words):
    """The second of a number, or of a day or moment of UTC, or None. Seconds count from the year 2000 on."""
    if re.fullmatch('0|[1-9][0-9]{0,9}', words):
        second = int(words)
    else:
        try:
            moment = datetime.datetime.fromisoformat(words)
        except ValueError:
            return None
        moment = moment if moment.tzinfo else moment.replace(tzinfo=datetime.timezone.utc)
        second = int((moment - FIRST_DAY).total_seconds())
    return second if 0 <= second <= GREATEST else None


def day_of(second):
    return (FIRST_DAY + datetime.timedelta(seconds=second)).strftime('%Y-%m-%d %H:%M:%S')


def second_now():
    return int((datetime.datetime.now(datetime.timezone.utc) - FIRST_DAY).total_seconds())


def line_wrong(line, key_of, may_name):
    """Why a node that looks at a file of rolls refuses this line of it, in words, or None."""
    if not line:
        return None
    if len(line) > MOST_DIGITS or not re.fullmatch('(?:[0-9a-fA-F]{2})+', line):
        return 'code 39: it isn\'t the digits of a roll'
    roll, wrong = read(bytes.fromhex(line), key_of)
    if wrong:
        return 'code %d: %s' % (wrong[0], REFUSALS[wrong[0]].format(*wrong[1:]))
    strangers = [str(member) for member in roll.members if not may_name(member)]
    return 'code 48: it names member %s, which is no peer here' % strangers[0] if strangers else None
