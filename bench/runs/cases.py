"""Stored runs of dns_stored_runs that are made: each message of the zone's other scripts cut at each octet, counts of a header that lie,
chains of pointers of every length that 512 octets hold and some that are longer, sweeps over stops and failures, what is largest of its
kind, and forty of the random runs. What is expected is what the plain machine of `model.py` prints. `cases.py` writes the scripts and puts their lines and what they
are to print at the end of `list` and `stdout`, in place of those that it made before.
"""
import glob
import itertools
import os
import re
import shlex
import struct

import model
import run

CRATE = os.path.join(os.path.dirname(os.path.abspath(__file__)), "../../crates/dns_stored_runs")
FOLDER = f"{CRATE}/data/example"
MADE = "by_the_model_"
RANDOM = "random/"
SWEEP = "sweep/"
LARGEST = "largest/"
TYPES = {name: number for number, name in model.NINE.items()}
APEX = (b"example",)
APEX_TEXT = b"\7example\0"


def name(text):
    return tuple(it.encode() for it in text.rstrip(".").split("."))


def data(words):
    """The octets of a record's data, of the types that the zone has."""
    kind, *rest = words
    if kind == "SOA":
        return model.plain_name(name(rest[0])) + model.plain_name(name(rest[1])) + struct.pack(">5I", *map(int, rest[2:]))
    if kind == "MX":
        return struct.pack(">H", int(rest[0])) + model.plain_name(name(rest[1]))
    if kind == "SRV":
        return struct.pack(">3H", *map(int, rest[:3])) + model.plain_name(name(rest[3]))
    if kind == "TXT":
        return b"".join(bytes([len(it)]) + it.encode() for it in rest)
    if kind == "A":
        return bytes(int(it) for it in rest[0].split("."))
    return model.plain_name(name(rest[0]))


def machine():
    """The zone of example.zone under the settings of `config`."""
    records = {}
    for line in open(f"{FOLDER}/example.zone"):
        owner, ttl, _, *words = shlex.split(line)
        records[name(owner), TYPES[words[0]], data(words)] = int(ttl)
    everybody = [(4, bytes(4), 0), (6, bytes(16), 0)]
    spec = {"apex": APEX, "origin": "example.", "s": 8, "j": 16, "keep": 4, "update": everybody, "transfer": everybody}
    return model.Machine([(spec, records)])


def messages():
    """The messages by UDP of the scripts, each once: of queries and transfers, and of updates."""
    found = {}
    for path in sorted(glob.glob(f"{FOLDER}/*")):
        if not os.path.basename(path).startswith(MADE):
            for it in re.findall(r"(?m)^udp \S+ ([0-9a-f]+)$", open(path, encoding="latin-1").read()):
                found[bytes.fromhex(it)] = None
    whole = [it for it in found if len(it) > 12]
    return [it for it in whole if it[2] >> 3 & 15 != 5], [it for it in whole if it[2] >> 3 & 15 == 5]


def cut(them):
    return [it[:length] for it in them for length in range(1, len(it))]


def lying(them):
    """Each of them with each count of its header by another number."""
    numbers = (0, 1, 2, 3, 4, 255, 256, 257, 32767, 65535)
    for it in them:
        for at in (4, 6, 8, 10):
            yield from (it[:at] + struct.pack(">H", number) + it[at + 2 :] for number in numbers)


def chained(length):
    """An update of the zone. Its first record, to be deleted, has an unknown type and data of so many pointers, the first to the apex and
    each other to the one before; the second, to be added, has an owner that points at the last. The identifier tells the length.
    """
    header = struct.pack(">6H", length, 5 << 11, 1, 0, 2, 0)
    zone = APEX_TEXT + struct.pack(">2H", model.SOA, model.IN)
    at = 12 + len(zone) + 12
    places = [12] + [at + 2 * it for it in range(length)]
    pointers = b"".join(struct.pack(">H", 0xC000 | it) for it in places[:-1])
    first = struct.pack(">H", 0xC00C) + struct.pack(">2HIH", 65280, model.NONE, 0, len(pointers)) + pointers
    second = struct.pack(">H", 0xC000 | places[-1]) + struct.pack(">2HIH", model.A, model.IN, length, 4) + bytes([192, 0, 2, 99])
    return header + zone + first + second


def endless(length):
    """The same, but that the first pointer of the chain is to the last one."""
    octets = bytearray(chained(length))
    at = 12 + 13 + 12
    octets[at : at + 2] = struct.pack(">H", 0xC000 | at + 2 * (length - 1))
    return bytes(octets)


def chains(make):
    """Those that 512 octets hold by UDP, and longer ones by TCP: some, and the longest, whose last place a pointer can name."""
    lines = ["connect 127.0.0.1"]
    for length in [*range(1, 235), 1000, 8173]:
        octets = make(length)
        lines += [f"udp 127.0.0.1 {octets.hex()}" if len(octets) <= 512 else f"tcp 0 {octets.hex()}", "flush"]
    return lines


def cases():
    queries, updates = messages()
    sent = lambda them: [f"udp 127.0.0.1 {it.hex()}" for it in them]
    held = ["flush", "udp 127.0.0.1 fffe00000001000000000000076578616d706c650000060001"]
    yield "queries_cut_at_each_octet", sent(cut(queries)) + held
    yield "updates_cut_at_each_octet", sent(cut(updates)) + held
    yield "counts_of_queries_that_lie", sent(lying(queries[:8])) + held
    yield "counts_of_updates_that_lie", [line for it in sent(lying(updates[:8])) for line in (it, "flush")] + held
    yield "chains_of_pointers", chains(chained)
    yield "chains_of_pointers_without_end", chains(endless)
    transfer = ["connect 127.0.0.1", "tcp 0 000600000001000000000000076578616d706c650000fc0001", f"udp 127.0.0.1 {updates[0].hex()}"]
    yield "a_transfer_over_a_failed_flush", [*transfer, "fail 1", "flush", "pump 0", held[1], "crash", held[1]]
    yield "a_transfer_over_a_stopped_flush", [*transfer, "stop 2", "flush", "pump 0", "crash", held[1]]


class Sweep:
    """A script that is made beside the machine that says what it prints."""

    def __init__(self, title, zones=("example.",), s=8, j=16, keep=4, hosts=0):
        everybody = [(4, bytes(4), 0), (6, bytes(16), 0)]
        self.specs = []
        for origin in zones:
            apex = name(origin)
            soa = model.plain_name(apex) * 2 + struct.pack(">5I", 7, 7200, 900, 1209600, 300)
            records = {(apex, model.SOA, soa): 3600, (apex, model.NS, model.plain_name((b"ns",) + apex)): 3600}
            records.update({((b"h%d" % it,) + apex, model.A, bytes([192, 0, 2, it])): 3600 for it in range(hosts)})
            spec = {"apex": apex, "origin": origin, "s": s, "j": j, "keep": keep, "update": everybody, "transfer": everybody}
            self.specs.append((spec, records))
        self.title, self.origins, self.machine = title, zones, model.Machine(self.specs)
        self.lines, self.printed, self.number, self.cases = [], [], 0, 0

    def does(self, line):
        self.lines.append(line)
        self.printed += self.machine.run(line)

    def message(self, opcode, origin, rtype, items=b"", count=0):
        self.number = (self.number + 1) % 65536
        return struct.pack(">6H", self.number, opcode << 11, 1, 0, count, 0) + model.plain_name(name(origin)) + struct.pack(">2H", rtype, model.IN) + items

    def update(self, origin="example.", octets=8):
        """Puts a text of so many octets, another each time, in place of the last one."""
        owner = model.plain_name((b"t",) + name(origin))
        text = f"{self.number + 1:08x}".encode().ljust(octets, b"x")
        items = owner + struct.pack(">2HIH", model.TXT, model.ANY, 0, 0)
        items += owner + struct.pack(">2HIH", model.TXT, model.IN, 60, octets + 1) + bytes([octets]) + text
        return f"udp 127.0.0.1 {self.message(5, origin, model.SOA, items, 2).hex()}"

    def fills(self):
        """Updates the first zone until its journal has no sector left."""
        store = self.machine.zones[0].store
        while store.used + len(store.staged) < store.j:
            self.does(self.update())

    def asks(self, origin):
        self.does(f"udp 127.0.0.1 {self.message(0, origin, model.SOA).hex()}")

    def pending(self):
        return [len(it.device.pending) for it in self.machine.zones]

    def crashes(self, word, kept):
        lists = [f"{origin}={','.join(map(str, it))}" for origin, it in zip(self.origins, kept) if it]
        self.does(" ".join([word, *lists]))

    def ends(self):
        """What is shown then, or a second crash where the opening stopped."""
        if self.machine.plan.stopped:
            self.does("crash")
        for it in self.origins:
            self.asks(it)
        self.cases += 1


def sublists(count):
    """All sublists of so many writes up to eight; above that none, all, each alone, all but each."""
    numbers = range(1, count + 1)
    if count <= 8:
        return [it for size in range(count + 1) for it in itertools.combinations(numbers, size)]
    alone = [(it,) for it in numbers]
    return [(), tuple(numbers), *alone, *(tuple(n for n in numbers if n != it) for it in numbers)]


def swept(sweep, prepares, event, word="stop", moments=None, opening=(), octets=8):
    """The event is stopped at each of its operations, or each fails, and a crash keeps each sublist of what is pending then. Each case
    begins with an update that is durable and a later base, so that none finds the journal of the one before it."""
    for moment in moments or itertools.count(1):
        done = []
        while True:
            for it in sweep.origins:
                for before in (sweep.update(it, octets), "flush", f"checkpoint {it}"):
                    sweep.does(before)
            prepares()
            sweep.does(f"{word} {moment}")
            before = len(sweep.printed)
            sweep.does(event())
            stopped = sweep.machine.plan.stopped or any(it.startswith("device ") for it in sweep.printed[before:])
            lists = list(itertools.product(*map(sublists, sweep.pending())))
            left = [it for it in lists if it not in done]
            kept = left[0] if left else lists[-1]
            done.append(kept)
            sweep.crashes(f"reopen {opening[sweep.cases % len(opening)]}" if opening else "crash", kept)
            sweep.ends()
            if not stopped or len(left) <= 1:
                break
        if not stopped:
            return


def sweeps():
    one = Sweep("a_flush_of_three")
    swept(one, lambda: [one.does(one.update()) for _ in range(3)], lambda: "flush")
    yield one
    one = Sweep("a_flush_of_entries_of_two_sectors", j=24)
    swept(one, lambda: [one.does(one.update(octets=200)) for _ in range(3)], lambda: "flush", octets=200)
    yield one
    one = Sweep("a_checkpoint", keep=3, hosts=55)
    swept(one, lambda: [(one.does(one.update(octets=100)), one.does("flush")) for _ in range(2)], lambda: "checkpoint example.")
    yield one
    one = Sweep("a_checkpoint_for_an_update", j=8, keep=2)
    swept(one, one.fills, one.update)
    yield one
    one = Sweep("the_33rd_update", j=2048)
    swept(one, lambda: [one.does(one.update()) for _ in range(32)], one.update, moments=(1, 32, 33))
    yield one
    one = Sweep("failures_of_the_33rd_update", j=2048)
    swept(one, lambda: [one.does(one.update()) for _ in range(32)], one.update, word="fail", moments=(1, 33))
    yield one
    one = Sweep("two_zones", zones=("example.", "example.org."))
    swept(one, lambda: [one.does(one.update(it)) for it in one.origins * 2], lambda: "flush")
    yield one
    one = Sweep("openings_that_stop", keep=3)
    swept(one, lambda: [one.does(one.update()) for _ in range(3)], lambda: "flush", opening=(1, 2, 3))
    swept(one, lambda: one.does(one.update()), lambda: "checkpoint example.", opening=(1, 2, 3))
    yield one
    one = Sweep("failures_of_a_flush")
    swept(one, lambda: [one.does(one.update()) for _ in range(3)], lambda: "flush", word="fail")
    yield one
    one = Sweep("failures_of_two_zones", zones=("example.", "example.org."))
    swept(one, lambda: [one.does(one.update(it)) for it in one.origins * 2], lambda: "flush", word="fail")
    yield one
    one = Sweep("failures_of_a_checkpoint_for_an_update", j=8, keep=2)
    swept(one, one.fills, one.update, word="fail")
    yield one
    one = Sweep("failures_of_a_checkpoint", keep=2)
    swept(one, lambda: [(one.does(one.update()), one.does("flush")) for _ in range(2)], lambda: "checkpoint example.", word="fail")
    yield one


def largest():
    """What is largest of its kind: an update of so many items as a message holds, a journal, a number of connections."""
    one = Sweep("an_update_of_4094_items", s=256, j=1024)
    items = b"".join(struct.pack(">3HIHI", 0xC00C, model.A, model.IN, 60, 4, it) for it in range(4094))
    one.does("connect 127.0.0.1")
    one.does(f"tcp 0 {one.message(5, 'example.', model.SOA, items, 4094).hex()}")
    one.does("flush")
    one.does(f"tcp 0 {one.message(0, 'example.', model.AXFR).hex()}")
    for event in ("pump 0", "pump 0", "crash"):
        one.does(event)
    one.asks("example.")
    yield one
    one = Sweep("a_journal_of_65536_sectors", s=1, j=65536)
    for event in (one.update(), "flush", one.update(), "checkpoint example.", one.update(), "flush", "crash"):
        one.does(event)
    one.asks("example.")
    yield one
    one = Sweep("all_connections")
    for _ in range(65):
        one.does("connect 127.0.0.1")
    for event in ("close 3", "connect 127.0.0.1", "connect 127.0.0.1"):
        one.does(event)
    for number in range(64):
        one.does(f"tcp {number} {one.message(0, 'example.', model.SOA).hex()}")
    yield one


def random_runs():
    """The random runs with the first seeds: of each its folder, and its lines with what is printed."""
    for seed in range(1, 41):
        maker = run.Maker(seed)
        specs = maker.specs()
        plain, lines, printed = model.Machine(specs), [], []
        for _ in range(120):
            lines.append(maker.line(plain))
            printed += plain.run(lines[-1])
        folder = f"{RANDOM}{seed}"
        os.makedirs(f"{CRATE}/data/{folder}", exist_ok=True)
        run.written(f"{CRATE}/data/{folder}", specs, lines)
        yield folder, printed


def main():
    runs = [it for it in open(f"{CRATE}/data/list").read().splitlines() if not any(f" {made}" in it for made in (MADE, RANDOM, SWEEP, LARGEST))]
    stdout = open(f"{CRATE}/stdout").read()
    at = re.search(rf"(?m)^replay example config {MADE}", stdout)
    stdout = stdout[: at.start()] if at else stdout
    for title, lines in cases():
        plain = machine()
        printed = [it for line in lines for it in plain.run(line)]
        with open(f"{FOLDER}/{MADE}{title}", "w") as file:
            file.writelines(it + "\n" for it in lines)
        runs.append(f"replay example config {MADE}{title}")
        stdout += "".join(it + "\n" for it in (runs[-1], *printed, "status 0"))
        print(f"{title}: {len(lines)} lines, {len(printed)} printed")
    for kind, sweep in [*((SWEEP, it) for it in sweeps()), *((LARGEST, it) for it in largest())]:
        folder = f"{kind}{sweep.title}"
        os.makedirs(f"{CRATE}/data/{folder}", exist_ok=True)
        run.written(f"{CRATE}/data/{folder}", sweep.specs, sweep.lines)
        runs.append(f"replay {folder} config script")
        stdout += "".join(it + "\n" for it in (runs[-1], *sweep.printed, "status 0"))
        print(f"{sweep.title}: {sweep.cases} cases, {len(sweep.lines)} lines")
    for folder, printed in random_runs():
        runs.append(f"replay {folder} config script")
        stdout += "".join(it + "\n" for it in (runs[-1], *printed, "status 0"))
    for path, text in ((f"{CRATE}/data/list", "".join(it + "\n" for it in runs)), (f"{CRATE}/stdout", stdout)):
        with open(path, "w") as file:
            file.write(text)


if __name__ == "__main__":
    main()
