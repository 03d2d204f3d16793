"""What `record` runs beside the program: clients that send mixed messages, and the comparison of a recording, of what `replay` prints of
it, and of what strace saw a server receive and send.

    recording.py clients PORT PROCESS SEED COUNT SERIAL SERIAL [whole]
        sends so many events to a server, whose zones have these serials; if so asked no changes of the second
    recording.py compare CALLS SCRIPT REPLAYED
        ends with status 0 if nothing differs
"""
import collections
import ipaddress
import os
import pathlib
import random
import re
import selectors
import signal
import socket
import struct
import sys
import time

from peers import A, ANY_CLASS, AXFR, IN, SOA, framed, name

NS, CNAME, PTR, MX, TXT, AAAA, SRV, OPT, IXFR, ANY, NONE_CLASS = 2, 5, 12, 15, 16, 28, 33, 41, 251, 255, 254
KINDS = (A, A, A, NS, CNAME, SOA, PTR, MX, TXT, AAAA, SRV, ANY, ANY, 0, 13, 64, 99, 250, 253, 254, 257, 65280, 65535)
ZONES = ("example.", "2.0.192.in-addr.arpa.")
SOURCES = ("127.0.0.1", "127.0.0.2", "127.0.0.3", "127.0.0.4", "127.0.0.5", "127.0.0.6", "::1")
SOURCES = SOURCES if pathlib.Path("/proc/net/if_inet6").exists() else SOURCES[:-1]
AT_ONCE = 10  # connections that are kept open


class Messages:
    """Messages at random, over two zones."""

    def __init__(self, rng, first, changes):
        self.rng, self.first, self.changes, self.sent, self.number = rng, first, changes, [0, 0], 0

    def head(self, flags, *counts):
        self.number += 1
        return struct.pack("!6H", self.number & 65535, flags, *counts)

    def owner(self, place):
        """A name in a zone, that is there or not."""
        rng, zone = self.rng, ZONES[place]
        if place:
            return f"{rng.randrange(40)}.{zone}" if rng.random() < 0.9 else zone
        fixed = ("host1", "ssh.host1", "_ssh._tcp.host1", "x.wild", "sub.*", "*", "a.b.subdel", "subdel", "first", "big", "ns", "nowhere.host1")
        kind = rng.random()
        if kind < 0.35:
            return f"{rng.choice(fixed)}.{zone}"
        if kind < 0.6:
            return f"h{rng.randrange(4000)}.{zone}"
        return f"u{rng.randrange(120)}.{zone}" if kind < 0.95 else zone

    def mixed(self, octets):
        """A name of which some letters are capitals."""
        return bytes(it - 32 if 97 <= it <= 122 and self.rng.random() < 0.5 else it for it in octets)

    def query(self):
        rng = self.rng
        owner = name(self.owner(rng.randrange(2)) if rng.random() < 0.93 else rng.choice(("example.org.", "org.", "", "192.in-addr.arpa.")))
        group = IN if rng.random() < 0.95 else rng.choice((0, 3, 254, 255, 65535))
        flags = rng.choice((0, 0, 0x100, 0x100, 0x10, 0x30))
        return self.head(flags, 1, 0, 0, 0) + (self.mixed(owner) if rng.random() < 0.3 else owner) + struct.pack("!2H", rng.choice(KINDS), group)

    def soa(self, place, serial):
        zone = ZONES[place]
        return name("ns.example.com.") + name(f"hostmaster.{zone}") + struct.pack("!5I", serial & 0xFFFFFFFF, 7200, 900, 1209600, 300)

    def ixfr(self):
        rng, place = self.rng, self.rng.choice(self.changes)
        last = self.first[place] + self.sent[place]
        serial = rng.choice((last, rng.randint(self.first[place], last), max(self.first[place], last - rng.randrange(40)), last + 2**31 + 9))
        zone, soa = name(ZONES[place]), self.soa(place, serial)
        count = 0 if rng.random() < 0.04 else 1
        item = zone + struct.pack("!2HIH", SOA, IN, 300, len(soa)) + soa
        return self.head(0, 1, 0, count, 0) + zone + struct.pack("!2H", IXFR, IN) + item * count

    def axfr(self):
        zone = self.rng.choice((ZONES[0], ZONES[1], ZONES[1], ZONES[1], "example.org."))
        return self.head(0, 1, 0, 0, 0) + name(zone) + struct.pack("!2H", AXFR, IN)

    def data(self, kind):
        rng, target = self.rng, name(self.owner(0))
        text = bytes(rng.choices(b"abcdefgh", k=rng.randrange(1, 60)))
        made = {A: rng.randbytes(4), AAAA: rng.randbytes(16), TXT: bytes([len(text)]) + text, MX: struct.pack("!H", rng.randrange(3)) + target}
        return made.get(kind) or {SRV: rng.randbytes(6) + target, 65280: text}.get(kind, target)

    def item(self, place):
        """An item of an update: a record, or the removal of one, of some or of all of a name (RFC 2136 section 2.5)."""
        rng, owner = self.rng, name(self.owner(place))
        kind = rng.choice((A, A, A, AAAA, TXT, MX, SRV, CNAME, NS, 65280)) if place == 0 else rng.choice((PTR, PTR, TXT))
        form, record = rng.random(), struct.pack("!2HIH", kind, IN, rng.choice((300, 60)) if kind == CNAME else 300, 0)
        if form < 0.65:
            data = self.data(kind)
            return owner + record[:-2] + struct.pack("!H", len(data)) + data
        if form < 0.8:
            return owner + struct.pack("!2HIH", rng.choice((kind, ANY)), ANY_CLASS, 0, 0)
        if form < 0.9:
            data = self.data(kind)
            return owner + struct.pack("!2HIH", kind, NONE_CLASS, 0, len(data)) + data
        if form < 0.97:
            soa = self.soa(place, self.first[place] + self.sent[place] + rng.choice((-3, 5, 9)))
            return name(ZONES[place]) + struct.pack("!2HIH", SOA, IN, 300, len(soa)) + soa
        return name("a.example.org.") + record

    def need(self, place):
        """A prerequisite (RFC 2136 section 2.4)."""
        rng, owner = self.rng, name(self.owner(place))
        return owner + struct.pack("!2HIH", rng.choice((ANY, A, PTR, MX)), rng.choice((ANY_CLASS, ANY_CLASS, NONE_CLASS)), 0, 0)

    def update(self, large=False):
        rng, place = self.rng, self.rng.choice((0, 0, 0, 1))
        zone = ZONES[place] if rng.random() < 0.95 else "example.org."
        count = rng.randrange(40, 160) if large else rng.choice((1, 1, 1, 2, 3))
        needs = [self.need(place) for _ in range(rng.choice((0, 0, 0, 1, 2)))]
        items = [self.item(place) for _ in range(count)]
        self.sent[place] += 1
        question = name(zone) + struct.pack("!2H", SOA if rng.random() < 0.98 else A, IN if rng.random() < 0.98 else 3)
        return self.head(0x2800, 1, len(needs), len(items), 0) + question + b"".join(needs + items)

    def huge(self):
        """An update for which the second zone has no room."""
        text = bytes([250]) + b"x" * 250
        items = [name(f"x{it}.{ZONES[1]}") + struct.pack("!2HIH", TXT, IN, 300, len(text)) + text for it in range(200)]
        return self.head(0x2800, 1, 0, len(items), 0) + name(ZONES[1]) + struct.pack("!2H", SOA, IN) + b"".join(items)

    def malformed(self):
        """Octets that are no request, or one with an error."""
        rng, good = self.rng, self.rng.choice((self.query, self.update, self.ixfr))()
        form = rng.randrange(9)
        if form == 0:
            return rng.randbytes(1)
        if form == 1:
            return rng.randbytes(rng.randrange(2, 600))
        if form == 2:
            return good[: rng.randrange(1, len(good))]
        if form == 3:
            return good + rng.randbytes(rng.randrange(1, 9))
        if form == 4:
            place = rng.randrange(4, 12)
            return good[:place] + rng.randbytes(1) + good[place + 1 :]
        if form == 5:
            return good[:2] + bytes([good[2] ^ rng.choice((0x80, 0x08, 0x10, 0x40))]) + good[3:]
        if form == 6:
            return good[:12] + bytes([0xC0, rng.choice((12, 13, 200))]) + good[12:]
        if form == 7:
            return good[:11] + b"\x01" + good[12:] + b"\0" + struct.pack("!2HIH", OPT, 1232, 0, 0)
        # Of an update the front alone: secondaries know types that the server takes as they are.
        place = rng.randrange(30 if good[2] == 0x28 else len(good))
        return good[:place] + rng.randbytes(1) + good[place + 1 :]

    def any(self, by_tcp):
        kinds = {self.query: 50, self.update: 24, self.malformed: 14, self.ixfr: 9, self.axfr: 6 if by_tcp else 1}
        made = self.rng.choices(list(kinds), kinds.values())[0]()
        if by_tcp and self.rng.random() < 0.01:
            return self.update(large=True)
        return made


class Connection:
    """A connection by TCP whose octets are read when there are any, and counted by whole messages."""

    def __init__(self, source, port, small):
        family = socket.AF_INET6 if ":" in source else socket.AF_INET
        self.sock, self.octets, self.ids, self.is_over, self.left = socket.socket(family), b"", set(), False, b""
        if small:
            self.sock.setsockopt(socket.SOL_SOCKET, socket.SO_RCVBUF, 4096)
        self.sock.bind((source, 0))
        self.sock.connect(("::1" if ":" in source else "127.0.0.1", port))
        self.sock.setsockopt(socket.IPPROTO_TCP, socket.TCP_NODELAY, 1)
        self.sock.setblocking(False)

    def take(self):
        """Reads what came."""
        try:
            octets = self.sock.recv(65536)
        except BlockingIOError:
            return
        except OSError:
            octets = b""
        self.is_over = self.is_over or not octets
        self.octets += octets
        while len(self.octets) >= 2 and len(self.octets) >= 2 + struct.unpack("!H", self.octets[:2])[0]:
            size = struct.unpack("!H", self.octets[:2])[0]
            self.ids.add(self.octets[2:4])
            self.octets = self.octets[2 + size :]

    def give(self, octets):
        """Sends octets, as long as the peer takes them; what it doesn't take comes before what is given next."""
        self.left += octets
        try:
            while self.left:
                self.left = self.left[self.sock.send(self.left) :]
        except BlockingIOError:
            pass
        except OSError:
            self.is_over = True

    def reset(self):
        """Ends at once, so that what is on its way is lost."""
        self.sock.setsockopt(socket.SOL_SOCKET, socket.SO_LINGER, struct.pack("ii", 1, 0))


class Clients:
    """Sockets of several addresses, and what they do."""

    def __init__(self, port, process, seed, first, changes):
        self.port, self.process, self.rng = port, process, random.Random(seed)
        self.messages = Messages(self.rng, first, changes)
        self.datagrams, self.open, self.silent, self.selector = [], [], None, selectors.DefaultSelector()
        self.counts = collections.Counter()
        for source in SOURCES:
            for _ in range(2):
                sock = socket.socket(socket.AF_INET6 if ":" in source else socket.AF_INET, socket.SOCK_DGRAM)
                sock.bind((source, 0))
                sock.connect(("::1" if ":" in source else "127.0.0.1", port))
                sock.setblocking(False)
                self.datagrams.append(sock)
                self.selector.register(sock, selectors.EVENT_READ, None)
        self.answered = collections.deque(maxlen=4096)

    def take(self, seconds=0.0):
        """Reads what came."""
        for key, _ in self.selector.select(seconds):
            if key.data:
                key.data.take()
                if key.data.is_over:
                    self.end(key.data)
                continue
            try:
                self.answered.append((key.fileobj, key.fileobj.recv(65536)[:2]))
            except OSError:
                pass

    def end(self, connection):
        if connection in self.open:
            self.open.remove(connection)
            self.selector.unregister(connection.sock)
            connection.sock.close()

    def connect(self, source=None, small=False):
        connection = Connection(source or self.rng.choice(SOURCES), self.port, small)
        self.open.append(connection)
        self.selector.register(connection.sock, selectors.EVENT_READ, connection)
        self.counts["connections"] += 1
        return connection

    def datagram(self, octets, sock=None):
        try:
            (sock or self.rng.choice(self.datagrams)).send(octets)
        except OSError:
            return
        self.counts["datagrams"] += 1

    def tell(self, connection, *messages):
        connection.give(b"".join(framed(it) for it in messages))
        self.counts["messages"] += len(messages)

    def wait(self, is_done, what, again=lambda: None):
        """Waits until something is so, and asks again after each second."""
        begun = time.monotonic()
        while not is_done():
            self.take(0.25)
            if time.monotonic() - begun > 60:
                raise SystemExit(f"after 60 seconds: no {what}")
            if int(4 * (time.monotonic() - begun)) % 4 == 3:
                again()

    def settle(self, sock):
        """A query by UDP, and its answer."""
        octets = self.messages.head(0, 1, 0, 0, 0) + name("host1.example.") + struct.pack("!2H", A, IN)
        self.datagram(octets, sock)
        self.wait(lambda: (sock, octets[:2]) in self.answered, "answer by UDP", lambda: self.datagram(octets, sock))

    def settle_connection(self, connection):
        """The same by TCP, unless the connection has ended."""
        octets = self.messages.head(0, 1, 0, 0, 0) + name("host1.example.") + struct.pack("!2H", A, IN)
        self.tell(connection, octets)
        done = lambda: connection.is_over or octets[:2] in connection.ids
        self.wait(done, "answer by TCP", lambda: connection.give(b""))

    # What is done at random.

    def usable(self):
        """The open connections on which messages begin where the last one ended."""
        return [it for it in self.open if it is not self.silent]

    def one_datagram(self):
        self.datagram(self.messages.any(False))

    def burst(self):
        """Updates that come at once, more than may wait, and some queries among them."""
        for _ in range(self.rng.choice((3, 12, 40))):
            self.datagram(self.messages.update() if self.rng.random() < 0.85 else self.messages.query())
        self.settle(self.rng.choice(self.datagrams))

    def empty(self):
        self.datagram(b"")

    def pipelined(self):
        some = self.usable()
        connection = self.rng.choice(some) if len(some) >= AT_ONCE else self.connect()
        self.tell(connection, *(self.messages.any(True) for _ in range(self.rng.choice((1, 1, 2, 3, 6)))))

    def in_pieces(self):
        """A message whose octets come one after the other, an empty one before it."""
        connection = self.connect()
        octets = framed(b"") + framed(self.messages.any(True))
        for place in range(0, len(octets), 1 + len(octets) // 5):
            connection.give(octets[place : place + 1 + len(octets) // 5])
            self.take(0.001)
        self.counts["messages"] += 1

    def updates_and_end(self):
        """Updates, and the end of what is sent, so that the connection may be gone before their replies."""
        connection = self.connect()
        self.tell(connection, *(self.messages.update() for _ in range(self.rng.randrange(1, 5))))
        try:
            connection.sock.shutdown(socket.SHUT_WR)
        except OSError:
            pass

    def cut(self):
        """A connection that is ended midway: in a message, in a transfer that isn't read, or with a reset."""
        connection = self.connect(small=True)
        form = self.rng.randrange(4)
        if form == 0:
            connection.give(framed(self.messages.any(True))[:-1])
        elif form == 1:
            self.tell(connection, *(self.messages.any(True) for _ in range(3)))
            connection.reset()
        else:
            self.messages.number += 1
            question = name(ZONES[0]) + struct.pack("!2H", AXFR, IN)
            self.tell(connection, self.messages.head(0, 1, 0, 0, 0) + question, self.messages.update())
            if form == 2:
                self.take(self.rng.random() / 20)
                connection.reset()
        self.end(connection)
        self.counts["cut"] += 1

    def leave(self):
        some = self.usable()
        if some:
            connection = self.rng.choice(some)
            self.settle_connection(connection)
            self.end(connection)

    def crowd(self, made):
        """More connections than there are places for, and a message on each, which the server sees all at once."""
        some = [self.connect("127.0.0.1" if it % 3 else SOURCES[-1]) for it in range(80)]
        for it in some:
            self.settle_connection(it)
        os.kill(self.process, signal.SIGSTOP)
        for it in some:
            self.tell(it, made())
        os.kill(self.process, signal.SIGCONT)
        for it in some:
            self.settle_connection(it)
        for it in some:
            self.end(it)
        self.settle(self.datagrams[0])

    def run(self, count):
        things = {self.one_datagram: 60, self.burst: 1.2, self.empty: 1, self.pipelined: 14, self.in_pieces: 1}
        things |= {self.updates_and_end: 1.5, self.cut: 1.5, self.leave: 2}
        self.silent = self.connect("127.0.0.1")
        self.silent.give(b"\0")
        for share, crowd in ((0.3, self.messages.update), (0.6, self.messages.query), (1, self.messages.huge)):
            while self.events() < count * share:
                self.rng.choices(list(things), things.values())[0]()
                self.take()
                if self.rng.random() < 0.1:
                    self.settle(self.rng.choice(self.datagrams))
            if share < 1:
                self.crowd(crowd)
        self.tell(self.connect("127.0.0.1"), self.messages.huge())
        self.finish()

    def events(self):
        return sum(self.counts[it] for it in ("datagrams", "messages", "connections"))

    def finish(self):
        """Waits until all is answered, and the server has ended the connection on which nothing came."""
        for sock in self.datagrams:
            self.settle(sock)
        for connection in self.usable():
            self.settle_connection(connection)
        self.wait(lambda: self.silent.is_over, "end of the connection that is silent")
        for connection in list(self.open):
            self.end(connection)
        self.settle(self.datagrams[0])
        print(", ".join(f"{number} {it}" for it, number in self.counts.items()))


# The comparison.

CALL = re.compile(r'^\d+ +(\w+)\((\d+)(?:, (.*))?\) += (-?\d+)(?: (\w+).*)?$', re.S)
OCTETS = re.compile(r'^"((?:\\x[0-9a-f]{2})*)", ')
PLACE = re.compile(r'sin6?_port=htons\((\d+)\).*?(?:inet_addr\(|inet_pton\(AF_INET6, )"((?:\\x..)*)"')


def plain(text):
    return bytes.fromhex(text.replace("\\x", ""))


def address_of(text):
    """The address of a socket, as a script has it; none if there isn't one."""
    found = PLACE.search(text)
    if not found:
        return None
    made = ipaddress.ip_address(plain(found[2]).decode())
    return str(made) if made.version == 4 else ":".join(f"{int(it, 16):x}" for it in made.exploded.split(":"))


class Seen:
    """What a server received and sent, as strace tells it."""

    def __init__(self, path):
        self.came, self.went = collections.defaultdict(list), collections.defaultdict(list)
        self.connections, self.refused, self.failed, self.by_descriptor = [], 0, 0, {}
        unfinished = {}
        for line in open(path):
            thread, rest = line.split(" ", 1)
            if "<unfinished ...>" in line:
                unfinished[thread] = line[: line.rindex(" <unfinished ...>")]
                continue
            if "resumed>" in rest:
                line = unfinished.pop(thread) + rest[rest.index("resumed>") + 8 :]
            self.call(line)

    def call(self, line):
        found = CALL.match(line)
        if not found:
            if not re.match(r"^\d+ +(\+\+\+|---)", line) and " = ?" not in line:
                raise SystemExit(f"a line of strace that is not understood: {line[:200]}")
            return
        what, descriptor, words, result, error = found[1], int(found[2]), found[3] or "", int(found[4]), found[5]
        if what == "accept4" and result >= 0:
            self.by_descriptor[result] = {"peer": address_of(words), "came": b"", "went": b"", "error": None, "opened": False}
        elif what == "epoll_ctl" and "EPOLL_CTL_ADD, " in words:
            added = int(words.split("EPOLL_CTL_ADD, ")[1].split(",")[0])
            if added in self.by_descriptor:
                self.by_descriptor[added]["opened"] = True
                self.connections.append(self.by_descriptor[added])
        elif what == "close":
            ended = self.by_descriptor.pop(descriptor, None)
            self.refused += ended is not None and not ended["opened"]
        elif what in ("recvfrom", "sendto") and descriptor in self.by_descriptor:
            self.stream(self.by_descriptor[descriptor], what == "recvfrom", words, result, error)
        elif what in ("recvfrom", "sendto"):
            self.datagram(what == "recvfrom", words, result, error)
        elif what not in ("recvfrom", "sendto", "accept4", "epoll_ctl") and descriptor in self.by_descriptor:
            raise SystemExit(f"a call on a connection that is not looked for: {line[:200]}")

    def stream(self, connection, is_read, words, result, error):
        if result < 0:
            if error != "EAGAIN":
                connection["error"] = error
            return
        if result:
            connection["came" if is_read else "went"] += plain(OCTETS.match(words)[1])[:result]

    def datagram(self, is_read, words, result, error):
        if is_read and result < 0:
            return
        if result < 0:
            self.failed += 1
        address, octets = address_of(words), plain(OCTETS.match(words)[1])
        (self.came if is_read else self.went)[address].append(octets)


class Told:
    """Lines of a script, or what `replay` prints: datagrams by address, connections in the order in which they came, and other lines. A
    script says `connect`, and the number of that connection is the one that `replay` prints."""

    def __init__(self, path, numbers=()):
        self.datagrams, self.connections, self.peers, self.others = collections.defaultdict(list), [], [], []
        self.words, self.numbers, here, numbers = collections.Counter(), [], {}, iter(numbers)
        for line in open(path):
            word, *rest = line.split()
            self.words[word] += 1
            if word == "udp":
                self.datagrams[rest[0]].append(bytes.fromhex(rest[1]))
            elif word == "tcp":
                if rest[0] not in here:
                    raise SystemExit(f"{path}: a message of a connection that isn't open: {line[:80]}")
                here[rest[0]].append(bytes.fromhex(rest[1]))
            elif word in ("conn", "connect"):
                number = rest[0] if word == "conn" else next(numbers, "none")
                self.numbers.append(number)
                self.peers.append(rest[0])
                self.connections.append([])
                here[number] = self.connections[-1]
            elif word == "close":
                here.pop(rest[0], None)
            elif word not in ("#", "pump", "flush"):
                self.others.append(line[:100])


def messages_in(octets):
    """The messages that have octets, of those that came on a connection (RFC 1035 section 4.2.2); the last may be cut."""
    at = 0
    while at + 2 <= len(octets):
        size = struct.unpack("!H", octets[at : at + 2])[0]
        if at + 2 + size > len(octets):
            return
        if size:
            yield octets[at + 2 : at + 2 + size]
        at += 2 + size


class Comparison:
    def __init__(self):
        self.failures = 0

    def note(self, is_so, text):
        print(("    " if is_so else "    NOT EXPECTED: ") + text, flush=True)
        self.failures += not is_so

    def lists(self, what, wanted, got):
        """Compares lists of octets, and tells the first that differ."""
        if wanted == got:
            return True
        at = next((it for it, (one, other) in enumerate(zip(wanted, got)) if one != other), min(len(wanted), len(got)))
        here = lambda some: some[at].hex()[:400] if at < len(some) else "none"
        self.note(False, f"{what}: {len(wanted)} and {len(got)}; number {at} is {here(wanted)}, and not {here(got)}")
        return False

    def datagrams(self, what, wanted, got):
        for address in sorted(set(wanted) | set(got)):
            if not self.lists(f"{what} {address}", wanted.get(address, []), got.get(address, [])):
                return False
        return True

    def received(self, seen, script):
        """That each datagram and each message that was read is a line, those of a peer in their order."""
        came = {it: [octets for octets in some if octets] for it, some in seen.came.items()}
        same = self.datagrams("datagrams that came from, and lines of", {it: some for it, some in came.items() if some}, script.datagrams)
        self.note(same, f"{sum(map(len, script.datagrams.values()))} datagrams that came are lines of the script, in order")
        same = [it["peer"] for it in seen.connections] == script.peers
        self.note(same, f"{len(seen.connections)} connections that were opened have a line each, in order; {seen.refused} more were refused")
        same, count = True, 0
        for number, (one, lines) in enumerate(zip(seen.connections, script.connections)):
            came, count = list(messages_in(one["came"])), count + len(lines)
            # One that the peer had ended may have messages that were not handled.
            if not self.lists(f"messages on connection {number}", came[: len(lines)] if one["error"] else came, lines):
                same = False
                break
        self.note(same, f"{count} messages that came on them are lines, in order")

    def sent(self, seen, replayed):
        """That what went out is what `replay` prints."""
        same = self.datagrams("datagrams that went to, and replies to", seen.went, replayed.datagrams)
        count = sum(map(len, seen.went.values()))
        octets = sum(len(it) for some in seen.went.values() for it in some)
        self.note(same, f"{count} datagrams to {len(seen.went)} addresses went out, {octets} octets, as replay prints; {seen.failed} failed")
        same, octets, cut, lacking = len(seen.connections) == len(replayed.connections), 0, 0, 0
        for number, (one, lines) in enumerate(zip(seen.connections, replayed.connections)):
            wanted = b"".join(framed(it) for it in lines)
            octets += len(one["went"])
            # The peer's end shows itself as an error: then a tail may be lacking, and no other octets.
            if one["error"] and wanted.startswith(one["went"]):
                cut += wanted != one["went"]
                lacking += len(wanted) - len(one["went"])
            elif wanted != one["went"]:
                at = next((it for it, (a, b) in enumerate(zip(wanted, one["went"])) if a != b), min(len(wanted), len(one["went"])))
                text = f"connection {number} from {one['peer']}: of {len(one['went'])} octets those from {at} on are "
                self.note(False, text + f"{one['went'][at : at + 60].hex()}, and replay has {len(wanted)}, there {wanted[at : at + 60].hex()}")
                same = False
                break
        self.note(same, f"{octets} octets went out on {len(seen.connections)} connections, as replay prints")
        print(f"    {cut} of these the peer had ended before: they lack {lacking} octets at the end, of what replay prints")


def most_at_once(script):
    """How many updates came between two flushes, at most."""
    most = now = 0
    for line in open(script):
        word, *rest = line.split()
        if word in ("udp", "tcp") and len(rest[1]) >= 24:
            now += int(rest[1][4:6], 16) & 0xF8 == 0x28
        now = 0 if word == "flush" else now
        most = max(most, now)
    return most


def compare(calls, script, replayed):
    comparison, seen, printed = Comparison(), Seen(calls), Told(replayed)
    lines = Told(script, printed.numbers)
    events = {word: count for word, count in lines.words.items() if word != "#"}
    print(f"    {sum(events.values())} events: {', '.join(f'{count} {word}' for word, count in events.items())}")
    print(f"    at most {most_at_once(script)} updates came between two flushes")
    comparison.note(not printed.others, f"replay prints replies alone{' but ' if printed.others else ''}{' '.join(printed.others[:3])}")
    comparison.received(seen, lines)
    comparison.sent(seen, printed)
    return comparison.failures > 0


def main():
    if sys.argv[1] == "clients":
        port, process, seed, count, *first = map(int, sys.argv[2:8])
        Clients(port, process, seed, first, (0,) if sys.argv[8:] else (0, 0, 1)).run(count)
        return 0
    return compare(*sys.argv[2:])


if __name__ == "__main__":
    raise SystemExit(main())
