"""Validators as after a week: a long chain, rolls that end while they run, and a restart of one after the other."""
import secrets
import time

import rolls
from chains import TAKES, end_all, hand_chain, have_reported, wait_until

# A ledger each 3.4 seconds: so many in a week.
OF_A_WEEK = 178_000
# For how long the first rolls hold, and the newer ones, in seconds.
HOLDS, HOLDS_NEWER = 20, 30 * 86400
# How long a node that is restarted has until it reports, in seconds: it hears the whole chain from each peer.
RETURNS = 300
PUBLISHERS, THRESHOLD = 3, 2


class Aged:
    """Three publishers, all of whose rolls name all members. They end soon, and newer ones take their place."""

    def __init__(self, members):
        self.members = tuple(members)
        self.keys = {publisher: secrets.token_bytes(32) for publisher in range(1, PUBLISHERS + 1)}
        self.sequence, self.until = 1, rolls.second_now() + HOLDS

    def renew(self):
        """From now on nodes are given newer rolls."""
        self.sequence, self.until = self.sequence + 1, rolls.second_now() + HOLDS_NEWER

    def lines(self, me):
        """What stands in the settings in the place of a list and a quorum."""
        first = rolls.second_now() - HOLDS_NEWER
        made = [(rolls.Roll(it, self.sequence, first, self.until, self.members), key) for it, key in self.keys.items()]
        sealed = ", ".join(f'"{rolls.written(*it).hex()}"' for it in made)
        return [f"threshold = {THRESHOLD}", f"roll = [{sealed}]"]

    def tables(self):
        return "".join(f'[[publisher]]\nnumber = {it}\nkey = "{key.hex()}"\n' for it, key in self.keys.items())

    def are_over(self):
        return rolls.second_now() > self.until


def last_of(nodes):
    return max(sequence for node in nodes for sequence, _ in node.reports())


def run_aged(nodes, seconds, text_of, pairs, aged, ledgers):
    """Runs nodes that know so many ledgers, and whose rolls end. What is wrong comes back, a line each."""
    for node in nodes:
        node.start(text_of(node.me, 10 * TAKES + seconds))
    fronts, found = hand_chain(nodes, pairs, ledgers, RETURNS)
    if not fronts:
        return found
    wait_until(aged.are_over, HOLDS)
    found += refused(nodes[0], text_of)
    aged.renew()
    for node in nodes if not found else []:
        found += restarted(node, nodes, text_of, seconds)
    end_all(nodes)
    return found


def refused(node, text_of):
    """Whether a start with rolls that have ended is refused, in a folder of its own."""
    other = node.beside("refused")
    other.start(text_of(node.me, 5))
    other.process.wait()
    if other.process.returncode != 3:
        return [f"a start with rolls that have ended ended with status {other.process.returncode}"]
    print("the rolls have ended: the nodes run on, and a start with them is refused", flush=True)
    return []


def restarted(node, nodes, text_of, seconds):
    """Starts a node again with newer rolls, and lets all go on for so many seconds. What is wrong comes back."""
    node.kill()
    before, began = last_of(nodes), time.monotonic()
    node.start(text_of(node.me, 10 * TAKES))
    if not wait_until(lambda: have_reported([node], before), RETURNS):
        return [f"node {node.me} didn't report within {RETURNS} s after its restart"]
    print(f"node {node.me} reports {time.monotonic() - began:.1f} s after its restart with newer rolls", flush=True)
    time.sleep(seconds / len(nodes))
    return [] if have_reported(nodes, before) else ["not all nodes reported meanwhile"]
