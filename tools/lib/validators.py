"""Validators on this machine: their keys and addresses, their settings, and their processes."""
import os
import secrets
import signal
import socket
import subprocess
import sys

import node_status
import rolls

# The status of a node that has spent its turns.
SPENT = 9
# How long before and behind the change of a list its rolls hold, in seconds.
HOLDS = 86400
# A member that no node has as a peer.
STRANGER = 63
# How a written journal begins.
JOURNAL = b"xl-journal 1\n"
# Where a node writes one as it goes, and before the moment that names a former life's.
JOURNAL_FILE = "xl.journal"
FIRST_PORT = 20000
LAST_PORT = 32000


def free_ports(count):
    """Ports of the loopback that nobody listens at. The system gives none of these to whoever dials."""
    found = []
    for port in range(FIRST_PORT + secrets.randbelow(8000), LAST_PORT):
        with socket.socket() as listener:
            try:
                listener.bind(("127.0.0.1", port))
            except OSError:
                continue
        found.append(port)
        if len(found) == count:
            return found
    sys.exit("cluster: there are not enough free ports")


class Pairs:
    """A key and an address for each two nodes, of which the first listens, and a transaction that all submit. Members that
    are this program come behind the nodes, and dial all. The nodes dial at fronts, if these are asked for, behind which the
    addresses stand. Clients come in at doors, if these are asked for."""

    def __init__(self, count, others, away=None, has_fronts=False, has_doors=False):
        self.of = {}
        self.fronts = {}
        self.transaction = secrets.token_hex(32)
        members = count + others
        ports = free_ports(members * (members - 1) + 1 + count)
        self.doors = {me: ("127.0.0.1", ports.pop()) for me in range(1, count + 1)} if has_doors else {}
        self.away = (away, ("127.0.0.1", ports.pop())) if away else None
        for first in range(1, members + 1):
            for second in range(first + 1, members + 1):
                address = ("127.0.0.1", ports.pop())
                self.of[first, second] = (secrets.token_bytes(32), address)
                if has_fronts:
                    self.fronts[first, second] = ("127.0.0.1", ports.pop())

    def peer(self, me, other):
        """The lines of the settings that name a peer."""
        pair = min(me, other), max(me, other)
        key, (host, port) = self.of[pair]
        way = "listen" if me < other else "dial"
        if way == "dial" and pair in self.fronts:
            host, port = self.fronts[pair]
        return f'[[peer]]\nnumber = {other}\nkey = "{key.hex()}"\n{way} = "{host}:{port}"\n'

    def door(self, me):
        """The lines of the settings that name where clients come in."""
        return [f'submit_at = "{host}:{port}"' for host, port in [self.doors[me]]] if self.doors else []

    def peer_away(self):
        """The same of a member that is away, at whose address a stranger listens."""
        if not self.away:
            return ""
        number, (host, port) = self.away
        return f'[[peer]]\nnumber = {number}\nkey = "{secrets.token_hex(32)}"\ndial = "{host}:{port}"\n'


def memory_of(process):
    """How many kilobytes of memory a process has."""
    try:
        with open(f"/proc/{process.pid}/statm", encoding="ascii") as file:
            return int(file.read().split()[1]) * os.sysconf("SC_PAGE_SIZE") // 1024
    except (OSError, ValueError, IndexError):
        return None


def quorum_of(count):
    """Four fifths of so many members, rounded up; of four or fewer, more than half."""
    return -(-4 * count // 5) if count > 4 else count // 2 + 1


class Everybody:
    """Each node trusts all members."""

    def __init__(self, members):
        self.members = members

    def lines(self, me):
        """What stands in the settings of a node: whom it trusts, and its quorum."""
        return [f"list = {self.members}", f"quorum = {quorum_of(len(self.members))}"]

    def tables(self):
        return ""


class Publishers:
    """So many publishers, all but one of which must name a member. Their rolls let the last member join at a second.

    Each has one roll, since no node keeps two of a publisher. The last publisher's holds from that second on. The one
    before it leaves out the last member, so that this one is named once too rarely until then."""

    def __init__(self, count, members, change):
        self.change, self.members, self.threshold = change, members, count - 1
        self.keys = {publisher: secrets.token_bytes(32) for publisher in range(1, count + 1)}
        self.rolls = [self.roll(publisher, 1) for publisher in self.keys]

    def roll(self, publisher, sequence):
        first = self.change if publisher == len(self.keys) else self.change - HOLDS
        named = self.members[:-1] if publisher == len(self.keys) - 1 else self.members
        return rolls.Roll(publisher, sequence, first, self.change + HOLDS, tuple(named))

    def digits(self, roll):
        return rolls.written(roll, self.keys[roll.publisher]).hex()

    def lines(self, me):
        """What stands in the settings in the place of a list and a quorum."""
        return [f"threshold = {self.threshold}", "roll = [" + ", ".join(f'"{self.digits(it)}"' for it in self.rolls) + "]"]

    def tables(self):
        return "".join(
            f'[[publisher]]\nnumber = {publisher}\nkey = "{key.hex()}"\n' for publisher, key in self.keys.items()
        )


class Renewed(Publishers):
    """The same publishers, but the rolls of the settings leave the last member out for good. It joins by newer rolls, in a
    file that is replaced while the nodes run. The first line there is to be refused, since it names a stranger."""

    FILE, REFUSED = "rolls.txt", ("refused", 1, 48)

    def __init__(self, count, members, change):
        super().__init__(count, members, change)
        holds = change - HOLDS, change + HOLDS
        stranger = rolls.Roll(1, 3, *holds, (members[0], STRANGER))
        self.newer = [stranger, *(self.roll(publisher, 2) for publisher in self.keys)]
        self.rolls = [rolls.Roll(publisher, 1, *holds, tuple(members[:-1])) for publisher in self.keys]

    def lines(self, me):
        return [*super().lines(me), f'rolls = "{self.FILE}"', 'status = "xl.status"']

    def renew(self, folder):
        """Replaces the file in the folder of a node."""
        beside = folder / (self.FILE + ".new")
        beside.write_text("".join(self.digits(roll) + "\n" for roll in self.newer))
        beside.replace(folder / self.FILE)


def settings(me, members, pairs, trust, milliseconds, asked):
    """The settings of one node, by whom it trusts. With a liar each submits a transaction of its own, since two sides
    that submit the same would build the same ledgers."""
    transaction = secrets.token_hex(32) if asked.liar else pairs.transaction
    lines = [
        f"me = {me}",
        *trust.lines(me),
        f"heartbeat_ms = {asked.heartbeat}",
        f"run_ms = {milliseconds}",
        f"turns = {asked.turns}",
        "limit = 262144",
        f'submit = ["{transaction}"]',
        *(["journal = true"] if asked.journal else []),
        *([f'journal_file = "{JOURNAL_FILE}"'] if asked.journal_file else []),
        *pairs.door(me),
        "",
    ]
    peers = "".join(pairs.peer(me, other) for other in members if other != me)
    return "\n".join(lines) + trust.tables() + peers + pairs.peer_away()


class Node:
    """One validator, over all its lives. What a life reports is added to the former ones' reports."""

    def __init__(self, program, folder, me):
        self.program = program
        self.folder = folder
        self.me = me
        self.lives = 0
        self.process = None
        self.ended = None
        folder.mkdir(parents=True)

    def start(self, text):
        (self.folder / "settings.toml").write_text(text)
        os.chmod(self.folder / "settings.toml", 0o600)
        self.lives += 1
        with (
            open(self.folder / "settings.toml", "rb") as source,
            open(self.folder / "reports", "ab") as reports,
            open(self.folder / "complaints", "ab") as complaints,
        ):
            self.process = subprocess.Popen(
                [self.program, "node"], cwd=self.folder, stdin=source, stdout=reports, stderr=complaints
            )

    def beside(self, name):
        """Another node with the same number, in a folder of its own."""
        return Node(self.program, self.folder / name, self.me)

    def kill(self):
        self.process.send_signal(signal.SIGKILL)
        self.process.wait()

    def reports(self):
        """The reported ledgers, as pairs of a sequence and an id; a line that a kill cut off is none, and no line of a
        journal is one."""
        text = (self.folder / "reports").read_text()
        lines = text.split("\n")[:-1]
        words = [line.split(" ") for line in lines]
        return [(int(line[1]), line[2]) for line in words if len(line) == 3 and line[0] == "full"]

    def journal(self):
        """The journal that its last life wrote to its file or behind its reports, or None."""
        written = self.journals()
        if written:
            return written[-1]
        text = (self.folder / "reports").read_bytes()
        place = text.rfind(JOURNAL)
        return None if place < 0 else text[place:]

    def journals(self):
        """The journals that its lives wrote to files, the last life's last. A kill may leave an empty one."""
        former = sorted(self.folder.glob(JOURNAL_FILE + ".*"), key=lambda path: int(path.suffix[1:]))
        paths = [*former, self.folder / JOURNAL_FILE]
        return [text for text in (path.read_bytes() for path in paths if path.exists()) if text]

    def is_over(self, turns):
        """Whether its last life came to its end by itself: by its time, or since it had spent its turns."""
        return self.process.returncode == 0 or bool(turns) and self.process.returncode == SPENT

    def status(self):
        """What it says of itself, or None."""
        try:
            return node_status.read((self.folder / "xl.status").read_text())
        except OSError:
            return None

    def kept(self):
        """The number that the node keeps."""
        try:
            return int((self.folder / "xl.keep").read_text())
        except (OSError, ValueError):
            return 0

    def complaint(self):
        return (self.folder / "complaints").read_text().strip()
