"""A member that lies to validators, who trust it on two sides that share nobody else, and what their journals show."""
import socket
import struct
import threading
import time

import blames
import words as plain
from strangers import frame

# The kinds of frames that it says back: positions, validations, sets of transactions.
SAYS_BACK = 1, 2, 4
# How many forks are told one by one.
MOST_TOLD = 5


class Sides:
    """Two sides of so many nodes, by halves. Each node trusts those of its side and the liar, and wants a word of each.

    So both quorums together never exceed what they must: both sizes, minus the one whom they share, plus the one liar."""

    def __init__(self, count):
        self.liar = count + 1
        self.halves = range(1, count // 2 + 1), range(count // 2 + 1, count + 1)

    def of(self, me):
        """Whom a node trusts."""
        return [*next(half for half in self.halves if me in half), self.liar]

    def lines(self, me):
        return [f"list = {self.of(me)}", f"quorum = {len(self.of(me))}"]

    def tables(self):
        return ""


class Liar:
    """Says back to each node whatever that node says, as its own word. So each node hears that the liar agrees with it."""

    def __init__(self, me, pairs, nodes):
        self.me = me
        for node in nodes:
            threading.Thread(target=self.stay, args=(node, *pairs.of[node, me]), daemon=True).start()

    def stay(self, node, key, address):
        """Dials the node again and again, as members do."""
        while True:
            try:
                with socket.create_connection(address, 5) as link:
                    link.settimeout(None)
                    self.talk(link, node, key)
            except OSError:
                pass
            time.sleep(0.2)

    def talk(self, link, node, key):
        with link.makefile("rb") as stream:
            while len(head := stream.read(14)) == 14:
                version, kind, length = struct.unpack(">BBH", head[2:6])
                body = stream.read(length)
                stream.read(32)
                if kind in SAYS_BACK:
                    link.sendall(frame(kind, self.me, node, body, key, version))


def blamed(program, nodes, liar, folder):
    """Has the journals blamed, and says whom they name. What is wrong comes back, a line each."""
    texts = [node.journal() for node in nodes]
    blame = blames.ask(program, [text for text in texts if text is not None])
    (folder / "blame").write_text(blame.text)
    for fork in blame.forks[:MOST_TOLD]:
        told_fork(blame, fork)
    if len(blame.forks) > MOST_TOLD:
        print(f"and {len(blame.forks) - MOST_TOLD} forks more")
    named = sorted({it.member for it in blame.twice})
    print(f"blamed: {len(blame.forks)} forks; who said two ledgers of one sequence: {plain.ranges(named) or 'nobody'}")
    found = [] if blame.forks else ["no two nodes reported two ledgers of one sequence"]
    if named != [liar]:
        found.append(f"the journals name {plain.ranges(named) or 'nobody'}, and not the liar, member {liar}, alone")
    few = [it.sequence for it in blame.forks if it.shown < it.least]
    found += [f"fewer members are named than the law says, at sequences {few}"] if few else []
    return found + [f"journal {it.journal} of node {it.node} isn't right" for it in blame.journals if not it.is_right]


def told_fork(blame, fork):
    """Says a fork in a line."""
    one, other = blame.node(fork.one.journal), blame.node(fork.other.journal)
    named = plain.ranges(sorted(it.member for it in blame.named(fork)))
    print(f"fork of sequence {fork.sequence}: nodes {one} and {other}; at least {fork.least} said both, and it was {named}")
