"""Members that hand validators a chain of ledgers, and what stands between validators until they may reach each other."""
import hashlib
import secrets
import socket
import struct
import threading
import time

from strangers import frame

# The members that hand them a chain, and how often these say their vote again, in seconds, so that none is let go.
FEEDERS = 2
SPEAKS = 10
# How long all nodes have to take a chain, and to report what follows it once they reach each other, in seconds.
TAKES = 600
FOLLOWS = 60
# 2000-01-01 00:00:00 UTC, in seconds from 1970 on.
EPOCH = 946_684_800


def header_of(sequence, parent, set_id):
    """A header of a ledger and its id."""
    header = struct.pack(">IQ", sequence, 10**17) + parent + set_id + bytes(32)
    header += struct.pack(">IIBB", sequence - 1, sequence, 30, 0)
    return header, hashlib.sha512(b"LWR\0" + header).digest()[:32]


def chain_of(count):
    """The headers of a chain of so many ledgers, and the id of the last one.

    The first has a high id, so that of two branches with a vote each it is preferred to one that a node has begun."""
    last = bytes(32)
    while last < b"\xff\xf0":
        first, last = header_of(1, bytes(32), secrets.token_bytes(32))
    headers = [first]
    for sequence in range(2, count + 1):
        header, last = header_of(sequence, last, bytes(32))
        headers.append(header)
    return headers, last


class Feeders:
    """Two members that hand each node a chain, and vote for its last ledger. A node that has begun a branch of its own
    by then leaves it, since they are two. Once the nodes reach each other they vote for what is first validated of a
    sequence: as long as members vote for the ledger at which two branches part, no rule lets a node leave its branch."""

    def __init__(self, first, chain):
        self.members = range(first, first + FEEDERS)
        self.headers, last = chain_of(chain)
        self.vote = last, chain
        self.done = threading.Event()

    def feed(self, me, node, key, address):
        threading.Thread(target=self.talk, args=(me, node, key, address), daemon=True).start()

    def talk(self, me, node, key, address):
        """Dials the node, again if it is restarted. It is handed the chain once: the others hand it on."""
        headers = b"".join(frame(3, me, node, it, key) for it in self.headers) if me == self.members[0] else b""
        while True:
            try:
                link = socket.create_connection(address, 10)
                link.settimeout(None)
                threading.Thread(target=self.listen, args=(node, link), daemon=True).start()
                link.sendall(headers)
                headers = b""
                self.vote_on(link, me, node, key)
            except OSError:
                time.sleep(0.2)

    def vote_on(self, link, me, node, key):
        said, at = None, 0
        while True:
            if said != self.vote or time.monotonic() > at + SPEAKS:
                said, at = self.vote, time.monotonic()
                signed = int(time.time()) - EPOCH
                link.sendall(frame(2, me, node, said[0] + struct.pack(">IIB", said[1], signed, 1), key))
            time.sleep(0.2)

    def listen(self, node, link):
        """Hears what a node says, and takes over the first validation of each sequence."""
        try:
            with link.makefile("rb") as stream:
                while len(head := stream.read(14)) == 14:
                    body = stream.read(int.from_bytes(head[4:6], "big"))
                    stream.read(32)
                    sequence = int.from_bytes(body[32:36], "big")
                    if head[3] == 2 and self.done.is_set() and sequence > self.vote[1]:
                        self.vote = body[:32], sequence
        except OSError:
            pass


class Fronts:
    """What stands between the nodes that dial and the addresses of those that listen. It hands on what is said, and back,
    and can cut all links at once."""

    def __init__(self, pairs, count):
        self.calls, self.ends = [], []
        for pair, front in pairs.fronts.items():
            if pair[1] <= count:
                forward(front, pairs.of[pair][1], self.calls, self.ends)

    def told(self, count):
        """How often the nodes, so many, called each other."""
        return f"they called each other {len(self.calls)} times over {count * (count - 1) // 2} links"

    def cut(self):
        """Cuts all links. Those who dialled dial again."""
        ends, self.ends[:] = list(self.ends), []
        for end in ends:
            let_go(end)

    def cut_each(self, seconds):
        """Cuts all links again and again, each so many seconds."""

        def go_on():
            while True:
                time.sleep(seconds)
                self.cut()

        threading.Thread(target=go_on, daemon=True).start()


def let_go(end):
    """Ends a connection in both directions."""
    try:
        end.shutdown(socket.SHUT_RDWR)
    except OSError:
        pass


def forward(front, address, counts, open_ends):
    """Takes callers at a front, and hands what is said to the address behind it, and back."""
    listener = socket.create_server(front)

    def pump(source, sink):
        try:
            while True:
                said = source.recv(65536)
                if not said:
                    break
                sink.sendall(said)
        except OSError:
            pass
        let_go(source)
        let_go(sink)

    def serve():
        while True:
            caller, _ = listener.accept()
            counts.append(front)
            try:
                called = socket.create_connection(address)
            except OSError:
                caller.close()
                continue
            open_ends.extend((caller, called))
            for ends in ((caller, called), (called, caller)):
                threading.Thread(target=pump, args=ends, daemon=True).start()

    threading.Thread(target=serve, daemon=True).start()


def wait_until(is_so, seconds):
    """Whether it is so within so many seconds."""
    end = time.monotonic() + seconds
    while not is_so():
        if time.monotonic() > end:
            return False
        time.sleep(0.2)
    return True


def have_reported(nodes, sequence):
    """Whether each node has reported a ledger behind that sequence."""
    return all(any(it > sequence for it, _ in node.reports()) for node in nodes)


def hand_chain(nodes, pairs, chain, follows=FOLLOWS):
    """Hands all nodes a chain, and then lets them reach each other. Their fronts come back, or what is wrong."""
    feeders = Feeders(len(nodes) + 1, chain)
    time.sleep(1)
    began = time.monotonic()
    for node in nodes:
        for me in feeders.members:
            feeders.feed(me, node.me, *pairs.of[node.me, me])
    if not wait_until(lambda: all(node.kept() > chain for node in nodes), TAKES):
        return None, [f"not all nodes took the chain: they keep {[node.kept() for node in nodes]}"]
    print(f"all have the chain after {time.monotonic() - began:.1f} s", flush=True)
    feeders.done.set()
    began = time.monotonic()
    fronts = Fronts(pairs, len(nodes))
    if not wait_until(lambda: have_reported(nodes, chain), follows):
        return None, [f"not all nodes reported a ledger behind the chain within {follows} s, in {len(fronts.calls)} calls"]
    print(f"all reported a ledger behind it {time.monotonic() - began:.1f} s after they could reach each other", flush=True)
    return fronts, []


def run_on_chain(nodes, seconds, text_of, pairs, chain):
    """Hands all nodes a chain, and lets them go on for so many seconds. What is wrong comes back, a line each."""
    for node in nodes:
        node.start(text_of(node.me, TAKES + seconds))
    fronts, found = hand_chain(nodes, pairs, chain)
    if fronts:
        time.sleep(seconds)
        print(fronts.told(len(nodes)))
        end_all(nodes)
    return found


def end_all(nodes):
    """Ends nodes whose runs would go on, as if their time were over."""
    for node in nodes:
        node.kill()
        node.process.returncode = 0
