"""Random runs: scripts of `dnsprim replay` that are made up from a seed, and what the program prints beside what the plain machine of
`model.py` does. `run.py PROGRAM FIRST COUNT` runs the seeds FIRST to FIRST + COUNT - 1 and ends with 0 where all agree.
"""
import os
import random
import struct
import subprocess
import sys
import tempfile

import model
from model import A, AAAA, ANY, AXFR, CNAME, IN, IXFR, MX, NINE, NONE, NS, PTR, SOA, SRV, TXT, plain_name

LABELS = [b"a", b"b", b"www", b"*", b"ns", b"sub", b"_tcp", b"x-1"]
HOSTS = ["127.0.0.1", "192.0.2.7", "10.1.2.3", "::1", "2001:db8::5"]


def escaped(octets, marked, least):
    """Octets in print: some after a backslash, and those that aren't visible by their number."""
    return "".join(f"\\{chr(it)}" if it in marked else chr(it) if least <= it < 127 else f"\\{it:03}" for it in octets)


def text_of(name):
    return "".join(escaped(it, b'.\\"();@$', 33) + "." for it in name) or "."


class Maker:
    def __init__(self, seed):
        self.random = random.Random(seed)
        self.serial = self.random.choice([7, 1, 2**32 - 2, 2**31 - 3, 0])
        # How a run goes: how often it flushes, checkpoints, and has failures.
        self.flushes, self.checkpoints, self.faults = (self.random.choice(it) for it in ([0.03, 0.5, 3], [0.02, 0.5], [0, 0.3, 1]))

    def pick(self, *weighted):
        return self.random.choices([it for it, _ in weighted], [w for _, w in weighted])[0]

    def name(self, apex):
        """A name of a zone: mostly one of a few, so that names meet."""
        few = [it for it in self.few if it[len(it) - len(apex) :] == apex]
        if few and self.random.random() < 0.7:
            return self.random.choice(few)
        return self.new_name(apex)

    def new_name(self, apex):
        return tuple(self.random.choice(LABELS) for _ in range(self.pick((0, 2), (1, 5), (2, 3), (3, 1)))) + apex

    def any_name(self):
        return self.name(self.pick((self.random.choice(self.apexes), 16), ((b"elsewhere",), 1), ((), 1)))

    def strings(self):
        size = self.pick((3, 6), (0, 1), (120, 3), (200, 2), (255, 1))
        more = self.random.choice([b"", b"\x01z", bytes([200]) + b"y" * 200])
        return bytes([size]) + bytes([self.random.choice(b"tuvw")]) * size + more

    def data(self, rtype, serial=None):
        r = self.random
        if rtype == A:
            return bytes([192, 0, 2, r.randrange(6)])
        if rtype == AAAA:
            return bytes(15) + bytes([r.randrange(4)])
        if rtype in (NS, CNAME, PTR):
            return plain_name(self.any_name())
        if rtype == MX:
            return struct.pack(">H", r.randrange(3)) + plain_name(self.any_name())
        if rtype == SRV:
            return struct.pack(">3H", r.randrange(2), 0, 22) + plain_name(self.any_name())
        if rtype == TXT:
            return self.strings()
        if rtype == SOA:
            numbers = (serial if serial is not None else self.some_serial(), 7200, 900, 1209600, r.choice([0, 60, 300, 86400]))
            return plain_name(self.any_name()) + plain_name((b"hostmaster",)) + struct.pack(">5I", *numbers)
        return bytes(r.randrange(256) for _ in range(r.choice([0, 1, 5, 300])))

    def some_serial(self):
        return (self.serial + self.pick((0, 2), (1, 6), (2, 2), (-1, 2), (2**31 - 1, 2), (2**31, 2), (2**31 + 1, 1), (self.random.randrange(40), 3))) % 2**32

    def rtype(self):
        return self.pick((A, 8), (AAAA, 3), (NS, 4), (CNAME, 4), (SOA, 2), (PTR, 1), (MX, 3), (TXT, 5), (SRV, 2), (731, 2), (257, 1))

    def zone(self, apex):
        """The records of a valid zone."""
        records = {(apex, SOA, self.data(SOA, self.serial)): 3600, (apex, NS, plain_name((b"ns",) + apex)): 3600}
        for _ in range(self.random.choice([3, 8, 16])):
            name, rtype, ttl = self.name(apex), self.rtype(), self.random.choice([0, 60, 3600])
            types = {t for o, t, _ in records if o == name}
            if rtype == SOA or rtype == NS and name[0] == b"*" or types & {CNAME} or rtype == CNAME and types:
                continue
            records[name, rtype, self.data(rtype)] = ttl
        return records

    # Messages.

    def packed(self, name, octets, places):
        """A name in a message, now and then after a pointer and in capitals."""
        made, at = b"", len(octets)
        for i, label in enumerate(name):
            if name[i:] in places and self.random.random() < 0.5:
                return made + struct.pack(">H", 0xC000 | places[name[i:]])
            places.setdefault(name[i:], at + len(made))
            made += bytes([len(label)]) + (label.upper() if self.random.random() < 0.1 else label)
        return made + b"\0"

    def message(self, ident, opcode, question, sections, rd=0):
        octets, places = struct.pack(">6H", ident, opcode << 11 | rd << 8, 1, *map(len, sections), 0), {}
        name, qtype, qclass = question
        octets += self.packed(name, octets, places) + struct.pack(">HH", qtype, qclass)
        for records in sections:
            for owner, rtype, rclass, ttl, data in records:
                octets += self.packed(owner, octets, places) + struct.pack(">HHIH", rtype, rclass, ttl, len(data)) + data
        return octets

    def query(self):
        qtype = self.pick((A, 8), (AAAA, 2), (MX, 4), (NS, 3), (SOA, 2), (TXT, 3), (SRV, 2), (CNAME, 2), (ANY, 4), (PTR, 1), (731, 1), (253, 1), (254, 1))
        qclass = self.pick((IN, 30), (3, 1), (255, 1))
        return self.message(self.random.randrange(65536), 0, (self.any_name(), qtype, qclass), [[], []], self.random.randrange(2))

    def prerequisite(self, zone):
        known = self.random.choice(list(zone.versions[-1]))
        name = self.pick((known[0], 3), (self.name(zone.apex), 2), ((b"else",), 0.1))
        how, rtype = self.random.randrange(5), self.pick((known[1], 3), (self.rtype(), 2), (ANY, 2))
        if how < 2:
            return name, rtype, (ANY, NONE)[how], self.pick((0, 40), (1, 1)), b""
        if how == 2:
            return (*known[:2], IN, 0, known[2])
        data = self.data(rtype) if rtype != ANY else b""
        return name, rtype, self.pick((IN, 20), (ANY, 1), (3, 1)), 0, data if self.random.random() < 0.9 else b""

    def item(self, zone):
        known = self.random.choice(list(zone.versions[-1]))
        name, rtype = self.pick((known[0], 2), (self.name(zone.apex), 5), ((b"else",), 0.1)), self.rtype()
        how = self.pick(("add", 8), ("again", 1), ("delete", 2), ("set", 1.2), ("name", 0.6), ("odd", 0.3))
        if how == "add":
            return name, rtype, IN, self.random.choice([0, 60, 3600]), self.data(rtype)
        if how == "again":
            return (*known[:2], IN, self.random.choice([60, 3600]), known[2])
        if how == "delete":
            return (*known[:2], NONE, 0, known[2])
        if how == "set":
            return *known[:2], ANY, 0, b""
        if how == "name":
            return known[0], ANY, ANY, 0, b""
        rtype = self.random.choice([A, 41, 0, 128, 250, 251, 252, 253, 254, 255, 65535, 65534, 4097])
        return name, rtype, self.random.choice([IN, ANY, NONE, 3]), self.random.choice([0, 0, 1]), self.random.choice([b"", self.data(rtype)])

    def update(self, machine):
        zone = self.random.choice(machine.zones)
        before = [self.prerequisite(zone) for _ in range(self.pick((0, 6), (1, 3), (2, 1)))]
        items = [self.item(zone) for _ in range(self.pick((1, 6), (2, 3), (5, 2), (0, 0.5)))]
        question = (self.pick((zone.apex, 30), (self.any_name(), 1)), self.pick((SOA, 30), (A, 1)), self.pick((IN, 30), (3, 1)))
        return self.message(self.random.randrange(65536), 5, question, [before, items], self.random.randrange(2))

    def transfer(self, machine):
        zone = self.random.choice(machine.zones)
        name, ident = self.pick((zone.apex, 20), (self.any_name(), 1)), self.random.randrange(65536)
        if self.random.random() < 0.3:
            return self.message(ident, 0, (name, AXFR, IN), [[], []])
        serial = self.pick((self.random.choice(zone.serials()), 6), (self.some_serial(), 2), ((zone.serials()[-1] + 2**31) % 2**32, 1))
        soa = (name, SOA, IN, 0, self.pick((self.data(SOA, serial), 20), (b"", 1)))
        return self.message(ident, 0, (name, IXFR, self.pick((IN, 20), (3, 1))), [[], [soa] * self.pick((1, 20), (0, 1), (2, 1))], self.random.randrange(2))

    def spoiled(self, octets):
        octets, how = bytearray(octets), self.random.randrange(4)
        if how == 0:
            return bytes(octets[: self.random.randrange(1, len(octets) + 1)])
        if how == 1:
            return bytes(octets) + b"\0"
        for _ in range(how - 1):
            octets[self.random.randrange(len(octets))] = self.random.randrange(256)
        return bytes(octets)

    def request(self, machine):
        octets = self.pick((self.query, 5), (lambda: self.update(machine), 8), (lambda: self.transfer(machine), 3))()
        return self.spoiled(octets) if self.random.random() < 0.08 else octets

    # Scripts.

    def lists(self, machine):
        made = []
        for zone in machine.zones:
            count = len(zone.device.pending)
            kept = [it for it in range(1, count + 2) if self.random.random() < 0.5]
            how = self.random.randrange(4)
            if how == 1:
                made.append(f"{zone.spec['origin']}=all")
            if how > 1 and kept:
                made.append(f"{zone.spec['origin']}={','.join(map(str, kept))}")
        return made

    def line(self, machine):
        if machine.plan.stopped and self.random.random() < 0.6:
            how = self.random.random()
            lists = self.lists(machine)
            return " ".join(["crash", *lists] if how < 0.7 else ["reopen", str(self.random.randrange(1, 4 * len(machine.zones))), *lists])
        number = self.random.randrange(4)
        often = [("udp", 10), ("tcp", 8), ("pump", 6), ("connect", 1.5), ("close", 0.6), ("flush", self.flushes), ("checkpoint", self.checkpoints)]
        kind = self.pick(*often, ("fail", 0.3 * self.faults), ("stop", 0.8 * self.faults), ("crash", 0.3 * self.faults))
        if kind == "udp":
            return f"udp {self.random.choice(HOSTS)} {self.request(machine).hex()}"
        if kind == "tcp":
            return f"tcp {number} {self.request(machine).hex()}"
        if kind in ("pump", "close"):
            return f"{kind} {number}"
        if kind == "connect":
            return f"connect {self.random.choice(HOSTS)}"
        if kind == "checkpoint":
            return f"checkpoint {self.random.choice(machine.zones).spec['origin']}"
        if kind in ("fail", "stop"):
            return f"{kind} {self.random.randrange(1, 14)}"
        if kind == "crash":
            return " ".join(["crash", *self.lists(machine)])
        return "flush"

    def specs(self):
        self.apexes = self.random.sample([(b"example",), (b"sub", b"example"), (b"loop",), (b"b", b"sub", b"example"), (b"q",)], self.pick((1, 3), (2, 3), (3, 2)))
        self.few = [self.new_name(apex) for apex in self.apexes for _ in range(5)]
        made = []
        for apex in self.apexes:
            lists = [self.pick(([(4, bytes(4), 0), (6, bytes(16), 0)], 6), ([(4, bytes([127, 0, 0, 0]), 8)], 1), ([], 0.3)) for _ in range(2)]
            spec = {"apex": apex, "origin": text_of(apex), "s": self.random.choice([8, 16]), "j": self.random.choice([8, 10, 16, 80]), "keep": self.random.choice([0, 1, 2, 4, 9])}
            made.append(({**spec, "update": lists[0], "transfer": lists[1]}, self.zone(apex)))
        return made


def printed(record):
    owner, rtype, ttl, data = record
    if rtype in (A,):
        words = ".".join(map(str, data))
    elif rtype == AAAA:
        words = ":".join(f"{it:x}" for it in struct.unpack(">8H", data))
    elif rtype == TXT:
        words, at = "", 0
        while at < len(data):
            words += ' "' + escaped(data[at + 1 : at + 1 + data[at]], b'\\"', 32) + '"'
            at += 1 + data[at]
        words = words[1:]
    elif rtype in NINE:
        front = {MX: 2, SRV: 6}.get(rtype, 0)
        numbers = struct.unpack(f">{front // 2}H", data[:front])
        first, at = model.read_plain(data, front)
        words = " ".join([*map(str, numbers), text_of(first)])
        if rtype == SOA:
            second, at = model.read_plain(data, at)
            words += " " + text_of(second) + " " + " ".join(map(str, struct.unpack(">5I", data[at:])))
    else:
        words = f"\\# {len(data)} {data.hex()}".rstrip()
    return f"{text_of(owner)} {ttl} IN {NINE.get(rtype, f'TYPE{rtype}')} {words}\n"


def prefix_text(prefix):
    family, octets, length = prefix
    return f'"{".".join(map(str, octets))}/{length}"' if family == 4 else f'"::/{length}"'


def written(folder, specs, lines):
    config = 'listen = "127.0.0.1:5300"\n'
    for number, (spec, records) in enumerate(specs):
        config += f'[[zone]]\norigin = "{spec["origin"]}"\nfile = "{number}.zone"\ndevice = "{number}.dev"\n'
        config += f"snapshot_sectors = {spec['s']}\njournal_sectors = {spec['j']}\nkeep = {spec['keep']}\n"
        for key in ("update", "transfer"):
            config += f"{key} = [{', '.join(map(prefix_text, spec[key]))}]\n"
        with open(f"{folder}/{number}.zone", "w") as it:
            it.writelines(map(printed, model.in_order(records)))
    for name, text in (("config", config), ("script", "".join(it + "\n" for it in lines))):
        with open(f"{folder}/{name}", "w") as it:
            it.write(text)


def one(program, seed, length):
    maker = Maker(seed)
    specs = maker.specs()
    machine = model.Machine(specs)
    lines, wanted = [], []
    for _ in range(length):
        lines.append(maker.line(machine))
        wanted += [(len(lines), it) for it in machine.run(lines[-1])]
    with tempfile.TemporaryDirectory() as folder:
        written(folder, specs, lines)
        ran = subprocess.run([program, "replay", "config", "script"], cwd=folder, capture_output=True, text=True)
        came = ran.stdout.splitlines()
        if ran.returncode == 0 and came == [it for _, it in wanted]:
            return len(lines), sum(it.startswith("recovered") for it in came), len(came)
        at = next((i for i, (a, b) in enumerate(zip(came, wanted)) if a != b[1]), min(len(came), len(wanted)))
        print(f"seed {seed}: status {ran.returncode} {ran.stderr.strip()}")
        if at < len(wanted):
            print(f"  line {wanted[at][0]}: {lines[wanted[at][0] - 1][:300]}\n  wanted {wanted[at][1][:400]}")
        print(f"  came   {came[at][:400] if at < len(came) else '(nothing)'}")
        kept = f"/tmp/differs-{seed}"
        os.makedirs(kept, exist_ok=True)
        written(kept, specs, lines)
        return None


def main(program, first, count, length=120):
    program, agreed, sums = os.path.abspath(program), 0, [0, 0, 0]
    for seed in range(int(first), int(first) + int(count)):
        ran = one(program, seed, int(length))
        if ran:
            agreed += 1
            sums = [a + b for a, b in zip(sums, ran)]
    print(f"{agreed} of {count} runs agree: {sums[0]} events, {sums[1]} recoveries, {sums[2]} lines printed")
    return agreed != int(count)


if __name__ == "__main__":
    sys.exit(main(*sys.argv[1:]))
