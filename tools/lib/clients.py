"""Clients that hand transactions in at nodes that run."""
import collections
import secrets
import socket
import threading
import time

# How long until the next transaction, and how long a client waits for its answer, in seconds.
EACH, PATIENCE = 1, 5
# What the line of an answer begins with.
ANSWERS = ("taken", "refused")


class Clients:
    """One transaction after the other, each handed in at the next node. What the nodes answered is counted."""

    def __init__(self, addresses):
        self.addresses = addresses
        self.answers = {me: collections.Counter() for me in addresses}

    def come(self):
        threading.Thread(target=self.hand_in, daemon=True).start()

    def hand_in(self):
        while True:
            for me, address in self.addresses.items():
                time.sleep(EACH)
                answer = answer_to(address, secrets.token_hex(32))
                if answer is not None:
                    self.answers[me][answer.split(" ")[0] or "nothing"] += 1

    def told(self):
        """Says how many transactions each node took. What is wrong comes back, a line each."""
        found = []
        for me, answers in self.answers.items():
            refused = f", and refused {answers['refused']}" if answers["refused"] else ""
            print(f"node {me}: took {answers['taken']} transactions{refused}")
            found += [] if answers["taken"] else [f"node {me} took no transaction"]
            found += [f"node {me} answered {word}" for word in answers if word not in ANSWERS]
        return found


def answer_to(address, line):
    """What is answered to a line, or None if nobody is there."""
    try:
        with socket.create_connection(address, PATIENCE) as client:
            client.sendall(line.encode() + b"\n")
            return client.makefile().readline().rstrip("\n")
    except OSError:
        return None
