"""A crowd of callers in one process, and a buyer that is another one: a loop that both shared would measure itself.

usage: crowd.py PORT buyer READS        reads an item, each time over a new connection, and prints the seconds of each as JSON
       crowd.py PORT KIND COUNT AGAIN   is a crowd until its input ends, and prints what it saw as JSON

A KIND is a class below, in small letters. Whoever is ended comes again after AGAIN seconds; not at all where that is negative.
"""
import json
import os
import re
import select
import socket
import subprocess
import sys
import time

SHOP = "/api/v1/organizers/house/events/hall"
LENGTH = re.compile(rb"\r\nContent-Length: (\d+)")
# How long a buyer waits for an answer, in seconds; after the second that doesn't come it stops.
PATIENCE = 10
# How long whoever takes nothing is still owed the rest of its answer, in seconds.
OWED = 1


def request(path, token="secret"):
    field = f"Authorization: Token {token}\r\n" if token else ""
    return f"GET {SHOP}{path} HTTP/1.1\r\nHost: house.example\r\n{field}\r\n".encode()


class Framed:
    """What came over a connection, as answers: how many of each status are whole, and whether one isn't."""

    def __init__(self, statuses):
        self.statuses, self.head, self.body = statuses, b"", 0

    def hears(self, part):
        """How many answers a part ends."""
        ended, at = 0, 0
        while at < len(part):
            if self.body:
                step = min(self.body, len(part) - at)
                self.body, at = self.body - step, at + step
                ended += self.body == 0
                continue
            begun = len(self.head)
            text = self.head + part[at:]
            gap = text.find(b"\r\n\r\n")
            if gap < 0:
                self.head = text
                break
            head, self.head, at = text[:gap], b"", at + gap + 4 - begun
            self.statuses[head[9:12].decode()] = self.statuses.get(head[9:12].decode(), 0) + 1
            length = LENGTH.search(head)
            self.body = int(length[1]) if length else 0
            ended += self.body == 0
        return ended

    def is_half(self):
        return bool(self.body or self.head)


class Silent:
    """A caller that sends nothing, and takes what comes."""
    # Seconds between two steps, how much is taken at once, how large the system's room for it is (none: as large as it likes),
    # and whether it takes by its steps alone.
    EACH, PIECE, ROOM, BY_STEPS = 0.3, 1 << 18, None, False

    def __init__(self, crowd):
        self.crowd, self.wire = crowd, None
        self.comes()

    def comes(self):
        self.wire = socket.socket()
        if self.ROOM:
            self.wire.setsockopt(socket.SOL_SOCKET, socket.SO_RCVBUF, self.ROOM)
        self.wire.setsockopt(socket.IPPROTO_TCP, socket.TCP_NODELAY, 1)
        self.wire.setblocking(False)
        self.wire.connect_ex(("127.0.0.1", self.crowd.port))
        self.framed, self.took = Framed(self.crowd.statuses), time.monotonic()
        self.due, self.unsent, self.said = self.took + self.EACH * self.crowd.share(), b"", False
        self.crowd.came(self)
        self.begins()

    def begins(self):
        pass

    def steps(self):
        pass

    def hears(self, ended):
        """What it does when so many answers have ended."""

    def wants(self):
        return (0 if self.BY_STEPS else select.EPOLLIN) | (select.EPOLLOUT if self.unsent else 0)

    def sends(self, text=b""):
        self.unsent += text
        try:
            self.unsent = self.unsent[self.wire.send(self.unsent):]
        except BlockingIOError:
            pass
        self.crowd.waits(self)

    def takes(self):
        part = self.wire.recv(self.PIECE)
        if not part:
            raise OSError("it is ended")
        self.took = time.monotonic()
        self.hears(self.framed.hears(part))

    def ends(self):
        """It was ended, or broke off where it was told nothing more."""
        self.crowd.left(self, self.framed.is_half() and time.monotonic() - self.took < OWED)
        self.wire.close()
        self.wire = None


class Drips(Silent):
    """A byte of a request that has no end, each time."""
    TEXT = request("/items/1/")[:-2] + b"X-Long: "

    def begins(self):
        self.sent = 0

    def steps(self):
        self.sends(self.TEXT[self.sent:self.sent + 1] or b"x")
        self.sent += 1


class Asks(Silent):
    """A request without a token each time, over one connection, once the one before it is answered."""
    EACH = 0.2

    def begins(self):
        self.waits = False

    def steps(self):
        if not self.waits:
            self.waits = True
            self.sends(request("/items/1/", None))

    def hears(self, ended):
        self.waits = self.waits and not ended


class Pipes(Silent):
    """Requests without a token and without a pause; each answer is taken at once."""
    TEXT = request("/items/1/", None) * 100

    def begins(self):
        self.unsent = self.TEXT
        self.crowd.waits(self)

    def sends(self, text=b""):
        super().sends(text if self.unsent else text + self.TEXT)
        self.unsent = self.unsent or self.TEXT
        self.crowd.waits(self)


class Slow(Pipes):
    """Requests as of those that pipe, of whose answers 2 KB are taken each time."""
    PIECE, BY_STEPS = 2048, True

    def steps(self):
        try:
            self.takes()
        except BlockingIOError:
            pass


KINDS = {it.__name__.lower(): it for it in (Silent, Drips, Asks, Pipes, Slow)}


class Crowd:
    """So many callers of a kind, until the input ends."""

    def __init__(self, port, kind, count, again):
        self.port, self.again, self.count = port, again, count
        self.at, self.members, self.away, self.statuses = select.epoll(), {}, [], {}
        self.seen = {"came": 0, "ended": 0, "half": 0}
        for _ in range(count):
            KINDS[kind](self)

    def share(self):
        """Where in its step a caller begins, so that not all of them step at once."""
        return self.seen["came"] % self.count / self.count

    def came(self, it):
        self.seen["came"] += 1
        self.members[it.wire.fileno()] = it
        it.heard = it.wants()
        self.at.register(it.wire.fileno(), it.heard)

    def waits(self, it):
        if it.wire is not None and it.heard != it.wants():
            it.heard = it.wants()
            self.at.modify(it.wire.fileno(), it.heard)

    def left(self, it, is_half):
        self.seen["ended"] += 1
        self.seen["half"] += is_half
        del self.members[it.wire.fileno()]
        if self.again >= 0:
            self.away.append((time.monotonic() + self.again, it))

    def event(self, it, what):
        try:
            if what & select.EPOLLOUT:
                it.sends()
            if it.wants() & select.EPOLLIN and what & ~select.EPOLLOUT:
                it.takes()
            elif what & (select.EPOLLHUP | select.EPOLLERR):
                # it takes what is left for it
                while True:
                    it.takes()
        except BlockingIOError:
            pass
        except OSError:
            it.ends()

    def step(self, now):
        for it in [it for it in self.members.values() if it.due <= now]:
            it.due = max(it.due + it.EACH, now)
            try:
                it.steps()
            except OSError:
                it.ends()
        while self.away and self.away[0][0] <= now:
            self.away.pop(0)[1].comes()

    def runs(self, stop):
        self.at.register(stop, select.EPOLLIN)
        while True:
            for fileno, what in self.at.poll(0.01):
                if fileno == stop:
                    return {**self.seen, "there": len(self.members), "statuses": self.statuses}
                if fileno in self.members:
                    self.event(self.members[fileno], what)
            self.step(time.monotonic())


def read_once(port):
    """Whether a read over a connection of its own is answered well."""
    statuses = {}
    framed = Framed(statuses)
    with socket.create_connection(("127.0.0.1", port), timeout=PATIENCE) as wire:
        wire.sendall(request("/items/1/"))
        while not framed.hears(part := wire.recv(65536)):
            if not part:
                return False
    return statuses == {"200": 1}


def buys(port, reads):
    """The seconds of each read, and none for one that wasn't answered."""
    times = []
    while len(times) < reads and times.count(None) < 2:
        begun = time.perf_counter()
        try:
            is_well = read_once(port)
        except OSError:
            is_well = False
        times.append(time.perf_counter() - begun if is_well else None)
        time.sleep(0.1)
    return times


class Beside:
    """A crowd in a process of its own beside which something is measured; `seen` is what it saw, once it went."""

    def __init__(self, port, kind, count, again=0.2):
        words = [sys.executable, os.path.abspath(__file__), str(port), kind, str(count), str(again)]
        self.process = subprocess.Popen(words, stdin=subprocess.PIPE, stdout=subprocess.PIPE)

    def __enter__(self):
        return self

    def __exit__(self, *_):
        said = self.process.communicate(timeout=60)[0]
        self.seen = json.loads(said) if said else {}


def bought(port, reads=20):
    """The seconds of each of so many reads by a buyer in a process of its own."""
    words = [sys.executable, os.path.abspath(__file__), str(port), "buyer", str(reads)]
    return json.loads(subprocess.run(words, stdin=subprocess.DEVNULL, stdout=subprocess.PIPE, check=True).stdout)


def main(port, kind, count, again="-1"):
    if kind == "buyer":
        print(json.dumps(buys(int(port), int(count))))
    else:
        print(json.dumps(Crowd(int(port), kind, int(count), float(again)).runs(sys.stdin.fileno())))


if __name__ == "__main__":
    if len(sys.argv) < 4:
        sys.exit(print(__doc__.strip()))
    main(*sys.argv[1:])
