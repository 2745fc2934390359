"""The journals of nodes 1 and 7, whom member 3 told two ledgers of sequence 1, as in schedules/lie_in_the_overlap.xl; and a
node's status."""
import hashlib
import struct

from strangers import frame

X, Y = '11' * 32, '22' * 32
NOW = 1000
# For each node its list, the members that it hears, and the ledger that it reports.
SIDES = {1: ((1, 2, 3, 4, 5), (2, 4, 3), X), 7: ((3, 4, 5, 6, 7), (6, 5, 3), Y)}


def key_of(one, other):
    return hashlib.sha256(b'%d %d' % (min(one, other), max(one, other))).digest()


def vote(sender, receiver, ledger):
    """A full validation of sequence 1."""
    body = bytes.fromhex(ledger) + struct.pack('>IIB', 1, 1, 1)
    return frame(2, sender, receiver, body, key_of(sender, receiver))


def journal(me, last='stop - = ok\n'):
    """Its node issues, hears three members, the liar last, and reports."""
    members, heard, ledger = SIDES[me]
    names = ','.join(map(str, members))
    lines = ['xl-journal 1', 'settings %d 4 %s 16384 yes 1 %d 0' % (me, names, NOW)]
    lines += ['key %d %s' % (it, key_of(me, it).hex()) for it in range(1, 8) if it != me]
    lines.append('issue %d 1 %s full ok = ok' % (NOW, ledger))
    lines += ['frame %d %s - = vote' % (NOW, vote(it, me, ledger).hex()) for it in heard]
    lines.append('reports 1024 - = 1 1 %s' % ledger)
    return '\n'.join(lines) + '\n' + last


# What `xl blame` says of both.
BLAME = """journal 1 1 yes 6
journal 2 7 yes 6
fork 1 1 4 %s 4 1,2,3,4,5 2 4 %s 4 3,4,5,6,7 1 1
twice 1 3 1 4 %s 2 4 %s
blame 0 0 1 1
""" % (X, Y, X, Y)
# What node 2 of a list of three says of itself.
STATUS = """xl-status 1
validating yes
speak 2
turns 10000000
heartbeat_ms 1000
run_ms 0
me 2
moment 900000
limit 16384
ledgers 8
kept 7
issues yes
report 6 %s
prefers none
lost 0
quorum 2
heard 1
heard 2
silent 3 895000
runs
""" % X
