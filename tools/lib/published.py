"""Real trusted lists: validators.txt, and published lists that were fetched before.

No signature is tested here; what is signed is handed on."""
import base64
import binascii
import datetime
import hashlib
import json
import os
import re
import sys
from dataclasses import dataclass, field

import schedules
from signatures import Signed

LETTERS = 'rpshnaf39wBUDNEGHJKLM4PQRST7VWXYZ2bcdeCg65jkm8oFqi1tuvAxyz'
NODE_KEY, KEY_BYTES, SUM_BYTES = 28, 33, 4
EPOCH = 946684800
MOST = 64
SECTIONS = ('validators', 'validator_list_keys', 'validator_list_threshold')


class Damaged(Exception):
    """A file that can't be read as what it should be."""


def say(words):
    print('%s: %s' % (os.path.basename(sys.argv[0]), words), file=sys.stderr)


def check_sum(payload):
    return hashlib.sha256(hashlib.sha256(payload).digest()).digest()[:SUM_BYTES]


def to_base58(key):
    payload = bytes([NODE_KEY]) + key
    number, letters = int.from_bytes(payload + check_sum(payload), 'big'), ''
    while number:
        number, place = divmod(number, 58)
        letters = LETTERS[place] + letters
    return letters


def from_base58(text):
    """The key's bytes, or None."""
    if len(text) > 60 or not set(text) <= set(LETTERS):
        return None
    number = 0
    for letter in text:
        number = number * 58 + LETTERS.index(letter)
    length = 1 + KEY_BYTES + SUM_BYTES
    if number.bit_length() > 8 * length:
        return None
    read = number.to_bytes(length, 'big')
    payload = read[:-SUM_BYTES]
    return payload[1:] if payload[0] == NODE_KEY and check_sum(payload) == read[-SUM_BYTES:] else None


def key_of(text):
    """The bytes of a key in either form, or None."""
    if re.fullmatch('(?i)(?:ed|02|03)[0-9a-f]{64}', text):
        return bytes.fromhex(text)
    return from_base58(text) if text.startswith('n') else None


@dataclass
class Trusted:
    """A file's list: its keys, and of validators.txt the publishers that it names."""

    path: str
    keys: list = field(default_factory=list)
    publisher: bytes = None
    publishers: list = field(default_factory=list)
    threshold: int = 0
    signed: Signed = None

    def add(self, text):
        key = key_of(text)
        if key is None:
            say('%s: left out, since it is no key: %s' % (self.path, ascii(text[:80])))
        elif key in self.keys:
            say('%s: left out, since it stands there twice: %s' % (self.path, text))
        else:
            self.keys.append(key)


def read_config(path, text):
    """A validators.txt."""
    trusted, section = Trusted(path), None
    for line in text.splitlines():
        words = line.split('#')[0].split()
        if not words:
            continue
        if words[0].startswith('['):
            section = words[0].strip('[]')
        elif section == 'validators':
            trusted.add(words[0])
        elif section == 'validator_list_keys':
            take_publisher(trusted, words[0])
        elif section == 'validator_list_threshold':
            trusted.threshold = number_of(path, words[0])
    if section is None:
        raise Damaged('%s is neither JSON nor has it a section such as [validators]' % path)
    return trusted


def take_publisher(trusted, text):
    key = key_of(text)
    if key is None:
        say('%s: left out, since it is no publisher\'s key: %s' % (trusted.path, ascii(text[:80])))
    elif key not in trusted.publishers:
        trusted.publishers.append(key)


def number_of(path, text):
    if not re.fullmatch('[0-9]{1,4}', text):
        raise Damaged('%s: [validator_list_threshold] is no number' % path)
    return int(text)


def decoded(path, part):
    """What a blob says: its sequence, its two times, its keys, and the blob itself with its members' manifests."""
    try:
        told = json.loads(base64.b64decode(part.get('blob'), validate=True))
        entries = [entry['validation_public_key'] for entry in told['validators']]
        manifests = [(entry['validation_public_key'], str(entry.get('manifest') or '')) for entry in told['validators']]
        times = [told['sequence'], told.get('effective', 0), told['expiration']]
    except (ValueError, binascii.Error, TypeError, KeyError, AttributeError, RecursionError):
        raise Damaged('%s: a blob of it can\'t be read' % path) from None
    if not all(isinstance(it, str) for it in entries) or not all(type(it) is int for it in times):
        raise Damaged('%s: a blob of it can\'t be read' % path)
    return (*times, entries, part, manifests)


def day(seconds):
    try:
        moment = datetime.datetime.fromtimestamp(seconds + EPOCH, datetime.timezone.utc)
    except (ValueError, OverflowError, OSError):
        return 'second %d' % seconds
    return moment.strftime('%Y-%m-%d %H:%M')


def in_force(path, blobs, now):
    """The blob with the greatest sequence that has begun and isn't over, or None."""
    best = None
    for blob in sorted(blobs, key=lambda blob: blob[0]):
        sequence, begins, ends = blob[:3]
        if begins > now:
            say('%s: sequence %d is left out, since it begins on %s' % (path, sequence, day(begins)))
        elif ends <= now:
            say('%s: sequence %d is left out, since it ended on %s' % (path, sequence, day(ends)))
        else:
            if best:
                say('%s: sequence %d is left out, since %d is in force' % (path, best[0], sequence))
            best = blob
    return best


def blobs_of(path, told):
    if told.get('version') == 1:
        return [told]
    found = told.get('blobs_v2')
    if told.get('version') != 2 or not isinstance(found, list) or not all(isinstance(it, dict) for it in found):
        raise Damaged('%s is no published list of version 1 or 2' % path)
    return found


def read_published(path, told, now):
    """A published list, or None where no blob of it is in force."""
    if not isinstance(told, dict):
        raise Damaged('%s is no published list of version 1 or 2' % path)
    best = in_force(path, [decoded(path, part) for part in blobs_of(path, told)], now)
    if best is None:
        return None
    *_, entries, part, manifests = best
    trusted = Trusted(path, publisher=key_of(str(told.get('public_key'))))
    members = [(key_of(text), manifest) for text, manifest in manifests if key_of(text)]
    manifest = part.get('manifest') or told.get('manifest')
    trusted.signed = Signed(trusted.publisher, manifest, part.get('blob'), part.get('signature'), members)
    for text in entries:
        trusted.add(text)
    return trusted


def read_file(path, now):
    text = schedules.read_text(path)
    if not text.lstrip().startswith(('{', '"')):
        return read_config(path, text)
    try:
        told = json.loads(text)
    except (ValueError, RecursionError):
        raise Damaged('%s can\'t be read as JSON' % path) from None
    return read_published(path, told, now)


def by_publisher(lists):
    published = {}
    for trusted in lists:
        if trusted.publisher in published:
            say('%s: for validators.txt it stands in place of another list of this publisher' % trusted.path)
        if trusted.publisher:
            published[trusted.publisher] = trusted
    return published


def take_publishers(trusted, published):
    """Adds to the list of validators.txt who stands on enough of its publishers' lists."""
    there = [published[key] for key in trusted.publishers if key in published]
    for key in trusted.publishers:
        if key not in published:
            say('%s: the list of publisher %s is left out, since no file in force is it' % (trusted.path, to_hex(key)))
    count = len(trusted.publishers)
    asked = trusted.threshold or (1 if count < 3 else count // 2 + 1)
    fewer = 0
    for key in dict.fromkeys(key for it in there for key in it.keys):
        if sum(key in it.keys for it in there) < asked:
            fewer += 1
        elif key not in trusted.keys:
            trusted.keys.append(key)
    if fewer:
        say('%s: %d keys are left out, since they stand on fewer than %d lists' % (trusted.path, fewer, asked))


def to_hex(key):
    return key.hex().upper()


def fits(trusted):
    if not trusted.keys:
        say('%s is left out, since there is no key on it' % trusted.path)
    elif len(trusted.keys) > MOST:
        say('%s is left out, since it has %d members, and a list may have %d' % (trusted.path, len(trusted.keys), MOST))
    return 0 < len(trusted.keys) <= MOST


def moment_of(text):
    """The second of the ledger's epoch at which a day begins, or now without one; None if it is no day."""
    try:
        day_of = text and datetime.datetime.strptime(text + ' +0000', '%Y-%m-%d %z')
    except ValueError:
        return None
    return int((day_of or datetime.datetime.now(datetime.timezone.utc)).timestamp()) - EPOCH


def read_lists(paths, now):
    """The lists of the files: those in force, with whoever stands on enough of their publishers' lists."""
    lists = [it for it in (read_file(path, now) for path in paths) if it]
    published = by_publisher(lists)
    for trusted in lists:
        if trusted.publishers:
            take_publishers(trusted, published)
    return [it for it in lists if fits(it)]
