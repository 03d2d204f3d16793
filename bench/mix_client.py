#!/usr/bin/env python3
"""What bench/mix asks of servers on 127.0.0.1. FILE holds queries for dnsperf, all of them for addresses; it is begun again where it ends. The
words:

`ask PORT FILE COUNT WINDOW` asks so many of the queries by UDP, so many at a time. All are to be answered NOERROR or NXDOMAIN.

`time PORT FILE SECONDS` asks one query after the other for so many seconds, and prints the median of the microseconds that each took.

`idle COUNT PORT..` keeps so many connections open at each port without sending anything, and opens another where one was closed. It prints
`open` when all are open at once for the first time, and goes on until it is killed.

`transfer ROUNDS RECORDS PORT..` takes the zone `example.` of so many records in whole by TCP, in so many rounds, from the servers in turn, each
second round in the other order. A line for each: its port, and the median of the milliseconds from sending the request to the last octet.
"""
import itertools
import pathlib
import selectors
import socket
import statistics
import struct
import sys
import time

sys.path.append(str(pathlib.Path(__file__).resolve().parent / "interop"))
from peers import AXFR, NOERROR, SOA, code, framed, query

NXDOMAIN = 3


def messages(file):
    """The queries of a file, without end."""
    owners = [line.split()[0] for line in pathlib.Path(file).read_text().splitlines()]
    return (query(number & 65535, owner) for number, owner in enumerate(itertools.cycle(owners)))


def connected(port):
    """A socket that sends datagrams to a server, and waits two seconds for a reply."""
    sock = socket.socket(socket.AF_INET, socket.SOCK_DGRAM)
    sock.connect(("127.0.0.1", port))
    sock.settimeout(2)
    return sock


def asked(port, file, count, window):
    """Asks so many queries, so many at a time, and gives the codes of the replies."""
    with connected(port) as sock:
        for number, message in enumerate(itertools.islice(messages(file), count)):
            if number >= window:
                yield code(sock.recv(65535))
            sock.send(message)
        for _ in range(min(window, count)):
            yield code(sock.recv(65535))


def timed(port, file, seconds):
    """The median of the microseconds of a query, asked one at a time for so many seconds."""
    taken = []
    end = time.monotonic() + seconds
    with connected(port) as sock:
        for message in itertools.takewhile(lambda _: time.monotonic() < end, messages(file)):
            begun = time.perf_counter_ns()
            sock.send(message)
            sock.recv(65535)
            taken.append(time.perf_counter_ns() - begun)
    return statistics.median(taken) / 1000


def idle(count, ports):
    """Keeps so many connections open at each port, without end. They are opened at intervals, since a server takes up but few at once."""
    ready = selectors.DefaultSelector()
    missing = [port for port in ports for _ in range(count)]
    told = False
    while True:
        closed, missing = missing, []
        for port in closed:
            time.sleep(0.01)
            try:
                ready.register(socket.create_connection(("127.0.0.1", port), 1), selectors.EVENT_READ, port)
            except OSError:
                missing.append(port)
        events = ready.select(0.1)
        if not told and not missing and not events:
            print("open", flush=True)
            told = True
        for key, _ in events:
            ready.unregister(key.fileobj)
            key.fileobj.close()
            missing.append(key.data)


def end_of_name(message, at):
    """Where the name ends that begins there."""
    while 0 < message[at] < 192:
        at += 1 + message[at]
    return at + (2 if message[at] else 1)


def kinds(message):
    """The types of the answer records of a message, which has nothing after them."""
    questions, answers, *others = struct.unpack("!4H", message[4:12])
    at = 12
    for _ in range(questions):
        at = end_of_name(message, at) + 4
    for _ in range(answers):
        at = end_of_name(message, at) + 10
        kind, length = struct.unpack("!H6xH", message[at - 10 : at])
        at += length
        yield kind
    if code(message) != NOERROR or any(others) or at != len(message):
        raise SystemExit("a message is none of a transfer")


def transferred(port, records, room):
    """The milliseconds of a whole transfer. `room` has its octets afterwards."""
    octets = memoryview(room)
    places = []
    at = got = answers = 0
    with socket.create_connection(("127.0.0.1", port), 10) as sock:
        begun = time.perf_counter_ns()
        sock.sendall(framed(query(1, "example.", AXFR)))
        while answers <= records:
            piece = sock.recv_into(octets[got:])
            if piece == 0:
                raise SystemExit(f"the server at port {port} closed the connection after {answers} records")
            got += piece
            while at + 2 <= got and at + 2 + int.from_bytes(octets[at : at + 2], "big") <= got:
                answers += int.from_bytes(octets[at + 8 : at + 10], "big")
                places.append(at)
                at += 2 + int.from_bytes(octets[at : at + 2], "big")
        taken = time.perf_counter_ns() - begun
    pieces = [bytes(octets[one + 2 : other]) for one, other in zip(places, [*places[1:], at])]
    seen = [kind for message in pieces for kind in kinds(message)]
    if at != got or len(seen) != records + 1 or [place for place, kind in enumerate(seen) if kind == SOA] != [0, records]:
        raise SystemExit(f"the server at port {port} gave another zone, with {len(seen)} records")
    return taken / 1e6


def transfers(rounds, records, ports):
    """For each port the median of the milliseconds of its whole transfers."""
    room = bytearray(200 * records + 65536)
    taken = {port: [] for port in ports}
    for number in range(rounds):
        for port in ports[:: -1 if number % 2 else 1]:
            taken[port].append(transferred(port, records, room))
    return {port: statistics.median(each) for port, each in taken.items()}


word, *words = sys.argv[1:]
if word == "ask":
    wrong = set(asked(int(words[0]), words[1], int(words[2]), int(words[3]))) - {NOERROR, NXDOMAIN}
    if wrong:
        raise SystemExit(f"the server at port {words[0]} gave the codes {wrong}")
elif word == "time":
    print(f"{timed(int(words[0]), words[1], float(words[2])):.1f}")
elif word == "idle":
    idle(int(words[0]), [int(port) for port in words[1:]])
else:
    for port, median in transfers(int(words[0]), int(words[1]), [int(port) for port in words[2:]]).items():
        print(f"{port} {median:.1f}")
