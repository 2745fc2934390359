"""Somebody without a key, who calls at the ports of validators or answers where they dial, in one of several ways.

Each way says what is good: of the ledgers that a node reports without strangers in the same time it reports so many in a
hundred, and its other figures stay below those named. tools/hostile_peers holds it against that."""
import hmac
import secrets
import selectors
import socket
import struct
import threading
import time


def frame(kind, sender, receiver, body, key, version=1):
    """A frame with its tag."""
    said = b"XL" + struct.pack(">BBHII", version, kind, len(body), sender, receiver) + body
    return said + hmac.digest(key, said, "sha256")


def swallow(link):
    try:
        while link.recv(65536):
            pass
    except OSError:
        pass


def begun(address):
    """A call that isn't waited for."""
    call = socket.socket()
    call.setblocking(False)
    call.connect_ex(address)
    return call


def says(link, said):
    """Whether it could be said."""
    try:
        return link.send(said) == len(said)
    except OSError:
        return False


def is_over(link):
    """Whether the other end has let go of it. What it says is swallowed."""
    try:
        return not link.recv(65536)
    except OSError:
        return True


class Stranger:
    """Somebody without a key, who calls at one address again and again, in a way of its own."""

    def __init__(self, way, first, second, address, late):
        self.way, self.address, self.late = way, address, late
        body = secrets.token_bytes(32)
        self.members = first, second
        self.frame = frame(5, second, first, body, secrets.token_bytes(32))
        self.frames = 500 * self.frame
        threading.Thread(target=self.stay, daemon=True).start()

    def stay(self):
        time.sleep(self.late)
        while True:
            try:
                with socket.create_connection(self.address, 5) as link:
                    getattr(self, self.way)(link)
            except OSError:
                pass
            time.sleep(0.01)

    def silent(self, link):
        """Sends three bytes, and stays. Good: 80 in a hundred reports."""
        link.settimeout(None)
        link.sendall(b"XL\x01")
        swallow(link)

    def calling(self, link):
        """Calls and goes, 100 times a second. Good: 80 in a hundred reports, and 10,000 turns a minute."""

    def flooding(self, link):
        """Sends frames with wrong tags as fast as it can. Good: 80 in a hundred reports, and 10,000 turns a minute; its memory
        grows by less than a megabyte a second."""
        link.settimeout(None)
        threading.Thread(target=swallow, args=(link,), daemon=True).start()
        while True:
            link.sendall(self.frames)

    def fronts(self, link):
        """Holds 66 calls, each with 48 bytes of the front of a frame. Good: 80 in a hundred reports, so that no save lacks a
        descriptor."""
        calls = [link] + [socket.create_connection(self.address, 5) for _ in range(CALLS - 1)]
        try:
            for call in calls:
                call.sendall(self.frame[:48])
            time.sleep(5)
        finally:
            for call in calls:
                call.close()

    def quiet(self, link):
        """Holds 64 calls that say nothing, and calls again for each that is let go. Good: 80 in a hundred reports."""
        self.hold(link, 64, b"")

    def throng(self, link):
        """Holds 200 calls that say the first five bytes of a frame, and calls again for each that is let go. They are
        more than the system's queue has places for. Good: 80 in a hundred reports."""
        self.hold(link, 200, self.frame[:5])

    def hold(self, link, count, said):
        """Holds so many calls, of which each says this."""
        with selectors.DefaultSelector() as calls:
            calls.register(link, selectors.EVENT_WRITE)
            while True:
                while len(calls.get_map()) < count:
                    calls.register(begun(self.address), selectors.EVENT_WRITE)
                for key, event in calls.select():
                    if event == selectors.EVENT_WRITE and says(key.fileobj, said):
                        calls.modify(key.fileobj, selectors.EVENT_READ)
                    elif event == selectors.EVENT_WRITE or is_over(key.fileobj):
                        calls.unregister(key.fileobj)
                        key.fileobj.close()
                time.sleep(0.02)

    def greeting(self, link):
        """Greets with 262,144 false headers. Good: 80 in a hundred reports, and 10,000 turns a minute; its memory grows by
        less than a megabyte a second."""
        link.settimeout(None)
        threading.Thread(target=swallow, args=(link,), daemon=True).start()
        first, second = self.members
        for sequence in range(1, 262145):
            link.sendall(b"XL\x01\x03" + struct.pack(">HIII", 118, second, first, sequence) + bytes(146))

    def slow(self, link):
        """Sends a frame with a wrong tag each ten seconds. Good: 80 in a hundred reports."""
        link.settimeout(None)
        threading.Thread(target=swallow, args=(link,), daemon=True).start()
        while True:
            link.sendall(self.frame)
            time.sleep(10)


class Answering:
    """Somebody without a key, at an address at which nodes dial a member that is away. It floods whoever dials. Good: 80 in
    a hundred reports, and 10,000 turns a minute; its memory grows by less than a megabyte a second."""

    def __init__(self, member, address):
        self.member = member
        listener = socket.create_server(address)
        threading.Thread(target=self.answer, args=(listener,), daemon=True).start()

    def answer(self, listener):
        while True:
            link, _ = listener.accept()
            threading.Thread(target=self.flood, args=(link,), daemon=True).start()

    def flood(self, link):
        threading.Thread(target=swallow, args=(link,), daemon=True).start()
        said = 500 * frame(5, self.member, 1, secrets.token_bytes(32), secrets.token_bytes(32))
        try:
            while True:
                link.sendall(said)
        except OSError:
            link.close()


# How many calls a stranger holds at once, which shows the beginnings of frames, or nothing.
CALLS = 66
CALLERS = ["silent", "calling", "flooding", "fronts", "quiet", "throng", "greeting", "slow"]
STRANGERS = [*CALLERS, "answering"]
# Those who come where all are asked for. A throng at many ports would keep this program from handing on what nodes say.
TOGETHER = [it for it in CALLERS if it != "throng"]


def invite(way, pairs, late):
    """Strangers at each address at which a node listens, so many seconds later, and at the one that nodes dial in vain."""
    if pairs.away:
        Answering(*pairs.away)
    if way != "answering":
        for (first, second), (_, address) in pairs.of.items():
            for each in TOGETHER if way == "all" else [way]:
                Stranger(each, first, second, address, late)
