#!/usr/bin/env python3
"""Random lists of commands over files, made up from a seed, and what the program does beside what the plain machine of `model.py` does:
`init`, `serve` with updates, queries and transfers over loopback, `load`, `load --dry-run`, `dump`, `verify`, `history`, `diff`, `fetch`,
and `migrate` of devices of format 1 that are encoded here.

`files.py PROGRAM FIRST COUNT` runs the seeds FIRST to FIRST + COUNT - 1. It prints what differs in a run, and at the end how many agree; it
ends with 0 if all do. A run that differs is kept in /tmp/files-SEED with its commands and devices.

Which updates share a flush depends on what the server reads in one turn, and so on time. So the messages of a step go to one socket, of which a
turn takes one; or the server is stopped until all have come on up to 44 connections, several on some, and then each turn takes one of each. The
model makes the same turns. So up to 32 updates share a flush, a 33rd has one before it, and checkpoints come among them. Updates by UDP share
none.

Most commands run to their end: then the status, both outputs, each reply, and each octet of each device have to be the model's. In others
strace kills the program as it begins its n-th write, sync or reply, or has its n-th write or sync fail; or it only tells what the program
writes and syncs, and a crash is made of that: each device gets what was written before its last sync up to some moment, and any of its later
writes. The writes and syncs that strace tells have to be the model's, in order, and those that come before a reply in the model have to come
before it. After a kill the devices have to be what the first of the model's writes leave. After a kill or a crash each zone is its loaded
records after a first part of the accepted updates and loads, which holds all that was answered NOERROR, told as loaded, or shown. A transfer
that was asked with a serial that was served is also applied here, by the rules of RFC 1995 and 5936, and has to come to the version that is
shown. It needs strace, and several may run at once.
"""
import os
import random
import re
import select
import shutil
import signal
import socket
import struct
import subprocess
import sys
import tempfile
import time

import model
from model import AXFR, IN, IXFR, NS, SOA, change_of, greater, plain_name, serial_of, soa_of
from run import Maker, prefix_text, printed

CALLS = {"write": "pwrite64", "sync": "fdatasync", "reply": "sendto"}
ADDRESSES = ["127.0.0.1", "127.0.0.2"]
PATIENCE = 20
PIECE = 4096  # what a connection is read by
CALL = re.compile(r"^(pwrite64|fdatasync)\(\d+<[^>]*?([^/>]*)>.*?(?:, (\d+))?\) += \d+")
REPLY = re.compile(r'^sendto\(\d+<(?:TCP:.*->([\d.]+):(\d+)\]>|UDP:.*htons\((\d+)\), sin_addr=inet_addr\("([\d.]+)").*\) += \d+')


class Differs(Exception):
    pass


def expect(what, came, wanted):
    if came != wanted:
        raise Differs(f"{what}\n  wanted {str(wanted)[:600]}\n  came   {str(came)[:600]}")


# Devices as files: their sectors, and a list of the writes of a command over all of them.


class Log:
    def begin(self, fail=None):
        self.events, self.counts, self.fail, self.has_failed = [], {"write": 0, "sync": 0, "reply": 0}, fail, False

    def tick(self, kind, *event):
        self.counts[kind] += 1
        if self.fail == (kind, self.counts[kind]):
            self.has_failed = True
            raise model.Failed
        self.events.append((kind, *event))


class File:
    """A device. What was written is there, whether a sync follows or not: a program that is killed takes nothing back."""

    def __init__(self, name, size, log):
        self.name, self.now, self.log = name, [bytes(512)] * size, log

    def write(self, at, octets):
        self.log.tick("write", self.name, at, octets)
        self.now[at] = octets

    def sync(self):
        self.log.tick("sync", self.name)

    def read(self, at):
        return self.now[at]

    def copy(self):
        other = File(self.name, 0, Log())
        other.log.begin()
        other.now = list(self.now)
        return other


# Format 1.


def old_sector(tag, opened, sequence, number, payload):
    assert len(payload) <= 488
    return (tag + struct.pack(">QQI", opened, sequence, number) + payload).ljust(512, b"\0")


def old_entry_sectors(length):
    return 1 + max(0, -(-(length - 484) // 488))


class Zone(model.Zone):
    def __init__(self, number, spec, records, log):
        self.spec, self.apex, self.origin = spec, spec["apex"], spec["origin"]
        self.file, self.path = f"{number}.zone", f"{number}.dev"
        self.device = File(self.path, 1 + 2 * (spec["s"] + spec["j"]), log)
        self.versions, self.shown, self.acknowledged, self.old, self.lacks_ns = [records], 0, 0, None, False

    def over(self, device):
        return model.Store(device, self.apex, self.spec["s"], self.spec["j"])

    def format(self):
        self.over(self.device).format(self.versions[0])

    def soa(self, version=-1):
        return soa_of(self.versions[version], self.apex)

    def look(self):
        """The store as a start would find it, and the number of its newest version."""
        store = self.over(self.device.copy())
        base, sets = store.look()
        return store, base + len(sets) - 1, sets

    def settle(self):
        """Which versions the device has: a first part of the accepted ones, with all that is known to be durable."""
        if self.old:
            newest = len(self.versions) - 1
        else:
            store, newest, sets = self.look()
            if sets != self.versions[store.base : newest + 1]:
                raise Differs(f"{self.origin}: the versions from {store.base} to {newest} are not the accepted ones")
        if newest < max(self.shown, self.acknowledged):
            raise Differs(f"{self.origin}: version {newest} is there, shown were {self.shown}, told {self.acknowledged}")
        del self.versions[newest + 1 :]
        self.shown = self.acknowledged = newest

    def entry(self, version):
        return model.entry_octets(change_of(self.versions[version - 1], self.versions[version], self.apex))

    def age(self, maker):
        """Turns the device to format 1, with as much of its history as may be there, and remains of other times where nothing is read."""
        newest, s, j = len(self.versions) - 1, self.spec["s"], self.spec["j"]
        most, used = 0, 0
        while most < newest and used + old_entry_sectors(len(self.entry(newest - most))) <= j:
            used += old_entry_sectors(len(self.entry(newest - most)))
            most += 1
        base, bank = newest - maker.random.randint(0, most), maker.random.randrange(2)
        written = maker.random.randrange(5)
        opened = written + maker.random.randrange(5)
        octets = model.snapshot_octets(self.versions[base])
        root = struct.pack(">QQII", written, len(octets), s, j) + plain_name(self.apex)
        made = [maker.random.choice([bytes(512), b"DPB1" + maker.random.randbytes(508)]) for _ in range(s + j)]
        for number, at in enumerate(range(0, len(octets), 488)):
            made[number] = old_sector(b"DPS1", written, base, number, octets[at : at + 488])
        place, count = s, written
        for version in range(base + 1, newest + 1):
            octets, count = self.entry(version), maker.random.randint(count, opened)
            bodies = [octets[at : at + 488] for at in range(484, len(octets), 488)]
            made[place] = old_sector(b"DPH1", count, version, len(bodies), struct.pack(">I", len(octets)) + octets[:484])
            for number, body in enumerate(bodies):
                made[place + 1 + number] = old_sector(b"DPB1", count, version, number, body)
            place += 1 + len(bodies)
        other = [maker.random.choice([bytes(512), b"DPS1" + maker.random.randbytes(508)]) for _ in range(s + j)]
        self.device.now = [old_sector(b"DPR1", opened, base, bank, root), *(made + other if bank == 0 else other + made)]
        self.old = {"opened": opened, "base": base, "bank": bank}

    def migrate(self):
        self.device.sync()
        if self.old is None:
            return f"{self.origin} already\n"
        newest, s, j = len(self.versions) - 1, self.spec["s"], self.spec["j"]
        kept, used = 0, 0
        while newest - kept > self.old["base"]:
            used += model.entry_sectors(len(self.entry(newest - kept)))
            if used > j or model.snapshot_sectors(len(model.snapshot_octets(self.versions[newest - kept - 1]))) > s:
                break
            kept += 1
        store = self.over(self.device)
        store.opened, store.base, store.bank, store.clear = self.old["opened"] + 1, newest - kept, 1 - self.old["bank"], 0
        octets = model.snapshot_octets(self.versions[store.base])
        parts = store.parts(store.bank, octets, store.opened, store.base)
        sectors = parts + [bytes(512)] * (s - len(parts))
        for version in range(store.base + 1, newest + 1):
            head, bodies = store.entry(store.first(store.bank) + len(sectors), self.entry(version), version)
            sectors += [head, *bodies]
        for at in range(s + j):
            self.device.write(store.first(store.bank) + at, sectors[at] if at < len(sectors) else bytes(512))
        self.device.sync()
        self.device.write(0, store.root(store.opened, len(octets)))
        self.device.sync()
        for at in range(s + j):
            self.device.write(store.first(1 - store.bank) + at, bytes(512))
        self.device.sync()
        store.clear = 1
        self.device.write(0, store.root(store.opened, len(octets)))
        self.device.sync()
        self.old = None
        return f"migrated {self.origin} version {newest} serial {serial_of(self.soa())}\n"

    # What is printed.

    def advances(self, version):
        """How far the serial goes from a version to the newest."""
        serials = self.serials()[version:]
        return sum((b - a) % 2**32 for a, b in zip(serials, serials[1:]))

    def journalled(self):
        return [it for it in range(self.store.base, len(self.versions)) if self.advances(it) < 2**31]

    def with_serial(self, serial):
        return next((it for it in self.journalled() if self.serials()[it] == serial), None)

    def between(self, old, new):
        """The lines of a change, and how many records go and come."""
        before, gone, after, come = change_of(old, new, self.apex)
        lines = ["- " + printed(it) for it in (before, *gone)] + ["+ " + printed(it) for it in (after, *come)]
        return "".join(lines), len(gone), len(come)


def zone_text(records, apex):
    soa = soa_of(records, apex)
    return "".join(map(printed, [soa, *(it for it in model.in_order(records) if it[1] != SOA)]))


class Refused(Exception):
    """A command ends so: its status, and the line on standard error."""


class Machine(model.Machine):
    def __init__(self, zones, log):
        self.plan, self.zones, self.log = model.Plan(), zones, log
        self.begin()

    def say(self, to, octets):
        if to is not None:
            self.log.tick("reply", to)
            self.out.append((to, octets, self.known()))

    def open(self, zone):
        if zone.old:
            raise Refused(1, f"{zone.path}: OldFormat")
        try:
            zone.open()
        except model.Failed:
            raise Refused(3, f"{zone.path}: Device")

    def known(self):
        """What is durable as soon as the reply that comes now is seen: after how many events, and of each zone the versions shown and told."""
        return len(self.log.events), [(it.shown, it.acknowledged) for it in self.zones]

    def learn(self, known):
        for zone, (shown, acknowledged) in zip(self.zones, known[1]):
            zone.shown, zone.acknowledged = max(zone.shown, shown), max(zone.acknowledged, acknowledged)

    def forget(self, known):
        """Nothing is known but this."""
        for zone in self.zones:
            zone.shown = zone.acknowledged = 0
        self.learn(known)

    def turn(self, *lines):
        """What goes out in a turn: to whom, the octets, and what is known by it."""
        out = []
        for line in lines:
            out += self.run(line)
        for number, it in self.connections.items():
            while it["messages"]:
                out += self.run(f"pump {number}")
        if self.waiting:
            out += self.run("flush")
        return [it for it in out if isinstance(it, tuple)]

    def turns(self, streams):
        """What goes out in the turns that take the messages of streams, by the numbers of their connections, where all is there before the
        first. In a turn each connection, in order, writes what is left to write; or else has the next message of its transfer made; or else
        is read by a piece, if no whole message is left of the last, and has one message taken. Then there is a flush, if an update waits."""
        out, left = [], {it: False for it in streams}
        unread, held = {number: b"".join(map(framed, it)) for number, it in streams.items()}, {it: b"" for it in streams}

        def run(line):
            came = [it for it in self.run(line) if isinstance(it, tuple)]
            out.extend(came)
            left.update({int(to.split()[1]): True for to, _, _ in came})

        while any(left.values()) or any(unread.values()) or any(map(whole, held.values())) or any(self.connections[it]["messages"] for it in streams):
            for number in sorted(streams):
                if left[number]:
                    left[number] = False
                elif self.connections[number]["messages"]:
                    run(f"pump {number}")
                else:
                    if not whole(held[number]):
                        held[number] += unread[number][:PIECE]
                        unread[number] = unread[number][PIECE:]
                    size = whole(held[number])
                    if size:
                        octets, held[number] = held[number][2:size], held[number][size:]
                        run(f"tcp {number} {octets.hex()}")
            if self.waiting:
                run("flush")
        return out


def framed(octets):
    """A message after its length."""
    return struct.pack(">H", len(octets)) + octets


def whole(octets):
    """How many octets the message at the front takes with its length, or none where it isn't whole."""
    size = 2 + struct.unpack(">H", octets[:2])[0] if len(octets) >= 2 else 0
    return size if size <= len(octets) else 0


# A client of transfers, written apart from the model's own answers.


def followed(apex, held, messages):
    """The set that the answer to one who holds a set, or nothing, comes to."""
    records = [(it[0], it[1], it[3], it[4]) for octets in messages for it in model.Message(octets).sections[0]]
    first = records[0]
    if len(records) == 1:
        assert held is not None and not greater(serial_of(first), serial_of(soa_of(held, apex))), "a SOA alone, which is newer"
        return held
    assert records[-1] == first and records[0][:2] == (apex, SOA), "the SOA is not the first and the last"
    if held is None or records[1][1] != SOA:
        made = {}
        for owner, rtype, ttl, data in records[:-1]:
            assert (owner, rtype, data) not in made, "a record comes twice"
            made[owner, rtype, data] = ttl
        return made
    made, at = dict(held), 1
    while at < len(records) - 1:
        for adds in (False, True):
            soa = records[at]
            assert soa[1] == SOA, "a sequence begins without a SOA"
            if not adds:
                assert made.pop((soa[0], SOA, soa[3])) == soa[2]
            else:
                made[soa[0], SOA, soa[3]] = soa[2]
            at += 1
            while records[at][1] != SOA:
                owner, rtype, ttl, data = records[at]
                if adds:
                    assert (owner, rtype, data) not in made, "what is added is there"
                    made[owner, rtype, data] = ttl
                else:
                    assert made.pop((owner, rtype, data)) == ttl
                at += 1
    assert soa_of(made, apex) == first
    return made


def free_port():
    """A port that is free, of those that the system gives to no one who doesn't name it."""
    while True:
        port = random.randrange(10000, 32000)
        with socket.socket() as stream, socket.socket(socket.AF_INET, socket.SOCK_DGRAM) as datagrams:
            try:
                stream.bind(("127.0.0.1", port))
                datagrams.bind(("127.0.0.1", port))
                return port
            except OSError:
                pass


def wait_for(server, states):
    """Waits until a process is twice in a row in one of these states: it sleeps, or it is stopped. One that has ended is as it is."""
    seen, deadline = 0, time.monotonic() + PATIENCE
    while seen < 2 and server.poll() is None and time.monotonic() < deadline:
        time.sleep(0.01)
        with open(f"/proc/{server.pid}/stat") as it:
            seen = seen + 1 if it.read().rsplit(") ", 1)[1][0] in states else 0


class Runner:
    def __init__(self, program, seed, folder):
        self.program, self.folder, self.maker = program, folder, Maker(seed)
        self.random, self.log, self.done, self.counts = self.maker.random, Log(), [], {"commands": 0, "kills": 0, "crashes": 0, "failures": 0, "requests": 0}
        self.log.begin()
        self.peers = {}  # the place of each socket that asks, by its transport, address and port
        made = self.maker.specs()
        for spec, records in made:
            if self.random.random() < 0.25:  # a zone whose transfer takes several messages
                spec["s"] = 160
                for number in range(self.random.randint(20, 60)):
                    text = b"\xc8" + bytes([97 + number % 26]) * 200
                    records[(b"bulk-%d" % number, *spec["apex"]), model.TXT, text * self.random.randint(1, 5)] = 300
            if self.random.random() < 0.2:  # one that may have more than 32 changes
                spec["j"] = 120
        self.zones = [Zone(number, spec, records, self.log) for number, (spec, records) in enumerate(made)]
        self.machine = Machine(self.zones, self.log)
        for zone in self.zones:
            self.write(zone.file, zone_text(zone.versions[0], zone.apex))
        self.settings()
        self.configure()

    def write(self, name, text):
        with open(f"{self.folder}/{name}", "w") as it:
            it.write(text)

    def settings(self):
        """Other values of what may change with each start."""
        lists = [[(4, bytes(4), 0), (6, bytes(16), 0)], [(4, bytes([127, 0, 0, 0]), 8)], [(4, bytes([127, 0, 0, 2]), 32)], []]
        for zone in self.zones:
            zone.spec["keep"] = self.random.choice([0, 1, 2, 4, 9, 70])
            zone.spec["update"], zone.spec["transfer"] = (self.random.choices(lists, [9, 4, 2, 0.5])[0] for _ in range(2))

    def configure(self):
        self.port = free_port()
        text = f'listen = "127.0.0.1:{self.port}"\n'
        for zone in self.zones:
            text += f'[[zone]]\norigin = "{zone.origin}"\nfile = "{zone.file}"\ndevice = "{zone.path}"\n'
            text += f"snapshot_sectors = {zone.spec['s']}\njournal_sectors = {zone.spec['j']}\nkeep = {zone.spec['keep']}\n"
            for key in ("update", "transfer"):
                text += f"{key} = [{', '.join(map(prefix_text, zone.spec[key]))}]\n"
        self.write("config", text)

    # A command: the model's effect, the program's, and the devices after both.

    def interruption(self, kinds, share):
        """Now and then a call that the program is killed at, or the moment of a crash: how many of the model's events come before it."""
        kinds = [it for it in kinds if self.log.counts[it]]
        if self.log.fail or not kinds or self.random.random() >= share:
            return None
        if self.random.random() < 0.5:
            return "crash", self.maker.pick((self.before_a_sync(), 3), (self.random.randint(0, len(self.log.events)), 1))
        kind = self.random.choice(kinds)
        return kind, self.random.randint(1, self.log.counts[kind])

    def before_a_sync(self):
        """The moment of a sync: mostly one of several writes, of which a crash may keep any."""
        moments, pending = [], {}
        for number, (kind, *rest) in enumerate(self.log.events):
            if kind == "write":
                pending[rest[0]] = pending.get(rest[0], 0) + 1
            elif kind == "sync":
                moments.append((number, 1 + min(40, 10 * max(0, pending.pop(rest[0], 0) - 1))))
        return self.maker.pick(*moments)

    def before(self, how):
        """The command that comes before the program's: strace, where something is to happen to it."""
        if not how and not self.log.fail:
            return []
        words = ["strace", "-D", "-yy", "-s", "0", "-o", "trace", "-e", f"trace={','.join(CALLS.values())}"]
        if self.log.fail:
            return [*words, "-e", f"inject={CALLS[self.log.fail[0]]}:error=EIO:when={self.log.fail[1]}"]
        return words if how[0] == "crash" else [*words, "-e", f"inject={CALLS[how[0]]}:signal=SIGKILL:when={how[1]}"]

    def fails(self, most):
        if self.random.random() < 0.12:
            return self.random.choice(["write", "sync"]), self.random.randint(1, most)
        return None

    def traced(self, how, is_partly):
        """Compares the writes and syncs that strace told with the model's: all of them, or the first. Before each reply come those that come
        before it in the model."""
        if not how and not self.log.fail:
            return
        deadline, path = time.monotonic() + PATIENCE, f"{self.folder}/trace"
        while not re.search(r"^\+\+\+ (exited|killed)", open(path).read(), re.M) and time.monotonic() < deadline:
            time.sleep(0.01)
        wanted = [(CALLS[it[0]], *(it[1:3] if it[0] == "write" else [it[1], 0])) for it in self.log.events if it[0] != "reply"]
        # To each peer: how many writes and syncs come before each reply at least. A connection is written in a later turn, and so may be later.
        before, place, sent = {}, 0, {}
        for kind, *rest in self.log.events:
            if kind == "reply":
                to = tuple(rest[0].split())
                before.setdefault(to if to in self.peers.values() else None, []).append(place)
            else:
                place += 1
        place = 0
        with open(path) as file:
            for line in file:
                call, reply = CALL.match(line), REPLY.match(line)
                if call:
                    it = call[1], call[2], int(call[3]) // 512 if call[1] == CALLS["write"] else 0
                    expect(f"event {place}", it, wanted[place] if place < len(wanted) else None)
                    place += 1
                if reply:
                    to = self.peers.get(("tcp", reply[1], int(reply[2])) if reply[1] else ("udp", reply[4], int(reply[3])))
                    number = sent[to] = sent.get(to, 0) + 1
                    if number > len(before.get(to, [])):
                        raise Differs(f"reply {number} to {to} is none of the model's")
                    if before[to][number - 1] > place:
                        raise Differs(f"reply {number} to {to} goes out after {place} writes and syncs, not after {before[to][number - 1]}")
        # Of the last reply strace may not have told, as the program was killed after it.
        if not is_partly and sum(sent.values()) < sum(map(len, before.values())) - 1:
            raise Differs(f"of the model's replies there are {sum(sent.values())} of {sum(map(len, before.values()))}")
        if not is_partly and place < len(wanted):
            raise Differs(f"after {place} of the model's {len(wanted)} writes and syncs there were no more")

    def crash(self, begun, moment):
        """Leaves of each device what a crash at a moment may leave."""
        for zone, now in zip(self.zones, begun):
            pending = []
            for it in self.log.events[:moment]:
                if it[:2] == ("write", zone.path):
                    pending.append(it[2:])
                if it[:2] == ("sync", zone.path):
                    for at, octets in pending:
                        now[at] = octets
                    pending = []
            share = self.random.choice([0, 0.5, 0.5, 0.5, 0.9, 1])
            for at, octets in pending:
                if self.random.random() < share:
                    now[at] = octets
            zone.device.now = now
            with open(f"{self.folder}/{zone.path}", "wb") as it:
                it.write(b"".join(now))

    def command(self, *words, effect, may_fail=True, may_stop=True, most=4):
        """Runs a command to its end or a kill. `effect` is the model's, and gives what is printed."""
        self.counts["commands"] += 1
        begun, old, known = [list(it.device.now) for it in self.zones], [it.old for it in self.zones], self.machine.known()
        # A device of format 1 may be found before or after a sync.
        may_fail = may_fail and (words[0] == "migrate" or not any(old))
        self.log.begin(self.fails(most) if may_fail else None)
        out = []
        try:
            for piece in effect():
                out.append(piece)
            wanted = (0, "".join(out), "")
        except Refused as it:
            wanted = (it.args[0], "".join(out), it.args[1] + "\n")
        how = self.interruption(["write", "sync"], 0.3) if may_stop else None
        self.tell(" ".join(words), how)
        ran = subprocess.run([*self.before(how), self.program, *words], cwd=self.folder, capture_output=True, text=True, timeout=120)
        came = ran.returncode, ran.stdout, ran.stderr
        is_killed = how is not None and ran.returncode == -signal.SIGKILL
        if is_killed:
            self.counts["kills"] += 1
            if not wanted[1].startswith(came[1]):
                raise Differs(f"{words}: printed {came[1]!r} before it was killed")
        else:
            expect(" ".join(words), came, wanted)
        # What a load told is told, but not what it would have.
        if is_killed and not came[1] or how and how[0] == "crash" and how[1] < len(self.log.events):
            self.machine.forget(known)
        self.traced(how, is_killed)
        self.adopt(begun, is_killed, old, how)

    def tell(self, text, how):
        self.counts["failures"] += self.log.has_failed
        self.done.append(text + (f" {how}" if how else "") + (f" failing at {self.log.fail}" if self.log.fail else ""))

    def sectors(self, zone):
        with open(f"{self.folder}/{zone.path}", "rb") as it:
            octets = it.read()
        expect(f"the length of {zone.path}", len(octets), 512 * len(zone.device.now))
        return [octets[at : at + 512] for at in range(0, len(octets), 512)]

    def is_first_part(self, begun, came):
        """The devices are what the first of the model's writes leave of what they were."""
        different = {(n, at) for n, it in enumerate(begun) for at in range(len(it)) if it[at] != came[n][at]}
        places = {it.path: n for n, it in enumerate(self.zones)}
        for _, name, at, octets in (it for it in self.log.events if it[0] == "write"):
            if not different:
                break
            number = places[name]
            (different.discard if came[number][at] == octets else different.add)((number, at))
        if different:
            raise Differs(f"after a kill the devices are none that the model's writes leave: {sorted(different)[:20]}")

    def adopt(self, begun, is_partly, old, how):
        """The devices are as the model's, or as a first part of its writes leaves them. Then each zone is as its device has it."""
        came = [self.sectors(it) for it in self.zones]
        if is_partly:
            self.is_first_part(begun, came)
        else:
            for zone, sectors in zip(self.zones, came):
                wrong = [at for at, octets in enumerate(sectors) if octets != zone.device.now[at]]
                if wrong:
                    at = wrong[0]
                    expect(f"{zone.path}: sectors {wrong[:20]}, the first", sectors[at].hex(), zone.device.now[at].hex())
        for zone, sectors in zip(self.zones, came):
            zone.device.now = sectors
        if how and how[0] == "crash" and not is_partly:
            self.counts["crashes"] += 1
            self.crash(begun, how[1])
        for zone, it in zip(self.zones, old):
            zone.old = it if zone.device.now[0][:4] == b"DPR1" else None
            zone.settle()

    # The commands.

    def any_zone(self):
        return self.random.choice(self.zones)

    def init(self):
        """Makes the devices; now and then after an `init` that was killed, or whose n-th write failed."""
        blank = [list(it.device.now) for it in self.zones]

        def effect():
            for zone in self.zones:
                try:
                    zone.format()
                except model.Failed:
                    raise Refused(3, f"{zone.path}: Device")
                yield f"formatted {zone.origin} serial {serial_of(zone.soa())}\n"

        if self.random.random() < 0.5:
            self.stopped_init(effect, blank)
        self.command("init", "config", effect=effect, may_fail=False, may_stop=False)

    def stopped_init(self, effect, blank):
        number = self.random.randint(1, sum(len(it) + 1 for it in blank))
        self.log.begin(("write", number) if self.random.random() < 0.3 else None)
        try:
            list(effect())
            wanted, how = None, ("write", number)
        except Refused as it:
            wanted, how = it.args, None
        self.tell("init config", how)
        ran = subprocess.run([*self.before(how), self.program, "init", "config"], cwd=self.folder, capture_output=True, text=True, timeout=120)
        if wanted:
            expect("init", (ran.returncode, ran.stderr), (wanted[0], wanted[1] + "\n"))
            expect("what a failed init left", [it.path for it in self.zones if os.path.exists(f"{self.folder}/{it.path}")], [])
        else:
            expect("init", ran.returncode, -signal.SIGKILL)
            self.begun(blank)
        for zone, now in zip(self.zones, blank):
            zone.device.now = list(now)

    def begun(self, blank):
        """What an `init` that was killed left: no file, an empty one, or a device that is blank or whole. `verify` tells which. It is removed."""
        came = []
        for zone, now in zip(self.zones, blank):
            path = f"{self.folder}/{zone.path}"
            wanted = 3, "", f"{zone.path}: Device\n"
            if os.path.exists(path):
                wanted = 1, "", f"{zone.path}: Geometry\n"
                if os.path.getsize(path):
                    now, wanted = self.sectors(zone), (1, "", f"{zone.path}: Blank\n")
                    if now[0] != bytes(512):
                        records = len(zone.versions[0])
                        line = f"{zone.origin} version 0 serial {serial_of(zone.soa())} records {records} entries 0 sectors-left {zone.spec['j']} openings 0\n"
                        wanted = 0, line, ""
            came.append(now)
            ran = subprocess.run([self.program, "verify", "config", zone.origin], cwd=self.folder, capture_output=True, text=True, timeout=120)
            expect(f"verify {zone.origin} after a killed init", (ran.returncode, ran.stdout, ran.stderr), wanted)
        self.is_first_part(blank, came)
        for zone in self.zones:
            if os.path.exists(f"{self.folder}/{zone.path}"):
                os.remove(f"{self.folder}/{zone.path}")

    def again(self):
        """`init` of what is there changes nothing. A master file is refused first, as that of a load was."""

        def effect():
            for zone in self.zones:
                if zone.lacks_ns:
                    raise Refused(1, f"{zone.file}: NoNs")
            raise Refused(1, f"{self.zones[0].path}: Exists")
            yield

        self.command("init", "config", effect=effect, may_fail=False, may_stop=False)

    def dump(self):
        zone = self.any_zone()

        def effect():
            self.machine.open(zone)
            yield zone_text(zone.versions[-1], zone.apex)

        self.command("dump", "config", zone.origin, effect=effect)

    def some_serial(self, zone):
        return self.maker.pick((self.random.choice(zone.serials()), 8), (self.maker.some_serial(), 1))

    def dump_at(self):
        zone = self.any_zone()
        serial = self.some_serial(zone)

        def effect():
            self.machine.open(zone)
            version = zone.with_serial(serial)
            if version is None:
                raise Refused(1, f"{serial}: NoVersion")
            yield zone_text(zone.versions[version], zone.apex)

        self.command("dump", "config", zone.origin, "--serial", str(serial), effect=effect)

    def diff(self):
        zone = self.any_zone()
        serials = [self.some_serial(zone) for _ in range(self.random.randint(1, 2))]

        def effect():
            self.machine.open(zone)
            found = [zone.with_serial(it) for it in serials]
            for serial, version in zip(serials, found):
                if version is None:
                    raise Refused(1, f"{serial}: NoVersion")
            old, new = found if len(found) == 2 else (*found, -1)
            old, new = zone.versions[old], zone.versions[new]
            yield zone.between(old, new)[0] if old != new else f"{zone.origin} unchanged\n"

        self.command("diff", "config", zone.origin, *map(str, serials), effect=effect)

    def history(self):
        zone = self.any_zone()

        def effect():
            self.machine.open(zone)
            for place, version in enumerate(zone.journalled()):
                line = f"version {version} serial {zone.serials()[version]}"
                if place:
                    _, gone, come = zone.between(zone.versions[version - 1], zone.versions[version])
                    line += f", {come} added, {gone} removed"
                yield line + "\n"

        self.command("history", "config", zone.origin, effect=effect)

    def verify(self):
        zones = self.maker.pick((self.zones, 3), ([self.any_zone()], 2))
        is_whole = not any(it.old for it in zones) and all(it.look()[0].clear for it in zones)
        words = [zones[0].origin] if len(zones) < len(self.zones) else []
        words += ["--every-sector"] if is_whole and self.random.random() < 0.5 else []

        def effect():
            faults = []
            for zone in zones:
                if zone.old:
                    faults.append(f"{zone.path}: OldFormat")
                    continue
                store, newest, sets = zone.look()
                yield (
                    f"{zone.origin} version {newest} serial {serial_of(zone.soa())} records {len(sets[-1])} entries {len(sets) - 1} "
                    f"sectors-left {zone.spec['j'] - store.used} openings {store.opened}\n"
                )
            if faults:
                raise Refused(1, "\n".join(faults))

        self.command("verify", "config", *words, effect=effect, may_fail=False, may_stop=False)

    def migrate(self):
        for zone in self.zones:
            if self.random.random() < 0.6 and not zone.old:
                zone.age(self.maker)
                with open(f"{self.folder}/{zone.path}", "wb") as it:
                    it.write(b"".join(zone.device.now))
                self.done.append(f"{zone.path} is turned to format 1: {zone.old}")
        for _ in range(self.random.randrange(2)):
            self.random.choice([self.dump, self.load, self.history, self.verify, self.serve])()

        def effect():
            for zone in self.zones:
                try:
                    line = zone.migrate()
                except model.Failed:
                    raise Refused(3, f"{zone.path}: Device")
                yield line

        while any(it.old for it in self.zones) or self.random.random() < 0.3:
            self.command("migrate", "config", effect=effect, most=60)

    def load(self):
        zone, maker = self.any_zone(), self.maker
        newest, apex = zone.versions[-1], zone.apex
        records, soa = dict(newest), soa_of(newest, apex)
        how = maker.pick(("same", 1), ("small", 6), ("new", 2), ("no NS", 0.5), ("older", 1))
        if how != "same":
            maker.serial = serial_of(soa)
            if how == "new":
                records = maker.zone(apex)
            for _ in range(self.random.choice([1, 2, 5])):
                owner, rtype, data = self.random.choice(list(records))
                if rtype not in (SOA, NS):
                    records[owner, rtype, data] = records.pop((owner, rtype, data)) + self.random.randrange(2)
                    if self.random.random() < 0.4:
                        del records[owner, rtype, data]
            for (owner, rtype, data), ttl in maker.zone(apex).items() if self.random.random() < 0.5 else ():
                types = {t for o, t, _ in records if o == owner} | {rtype}
                if rtype not in (SOA, NS) and (model.CNAME not in types or (owner, rtype, data) in records):
                    records[owner, rtype, data] = ttl
            serial = (serial_of(soa) + maker.pick((1, 8), (5, 2), (2**31 - 1, 0.2))) % 2**32 if how != "older" else (serial_of(soa) - maker.pick((0, 3), (1, 1))) % 2**32
            records = {it: ttl for it, ttl in records.items() if it[1] != SOA}
            made = model.with_serial(soa, serial)
            records[apex, SOA, made[3]] = made[2]
        if how == "no NS":
            records = {it: ttl for it, ttl in records.items() if it[:2] != (apex, NS)}
        self.write(zone.file, zone_text(records, apex))
        zone.lacks_ns = how == "no NS"
        is_dry = self.random.random() < 0.3

        def effect():
            if how == "no NS":
                raise Refused(1, f"{zone.file}: NoNs")
            self.machine.open(zone)
            if records == newest:
                yield f"{zone.origin} already\n"
                return
            if not greater(serial_of(soa_of(records, apex)), serial_of(soa)):
                raise Refused(1, f"{zone.file}: SerialNotRaised")
            entry = model.entry_octets(change_of(newest, records, apex))
            size = model.entry_sectors(len(entry))
            if size > zone.spec["j"] or model.snapshot_sectors(len(model.snapshot_octets(records))) > zone.spec["s"]:
                raise Refused(1, f"{zone.path}: NoRoom")
            lines, gone, come = zone.between(newest, records)
            if is_dry:
                yield lines
                return
            if size > zone.store.left() and not zone.store.checkpoint(zone.spec["keep"], size, lambda it: zone.versions[it]):
                raise Refused(3, f"{zone.path}: Device")
            zone.store.stage(entry)
            zone.versions.append(records)
            if not zone.store.flush():
                raise Refused(3, f"{zone.path}: Device")
            zone.shown = zone.acknowledged = len(zone.versions) - 1
            yield f"loaded {zone.origin} version {zone.shown} serial {serial_of(zone.soa())}, {come} added, {gone} removed\n"

        self.command("load", "config", zone.origin, *(["--dry-run"] if is_dry else []), effect=effect, most=8)

    # Serving.

    def steps(self, zone, count):
        """What is asked, step by step, and what is to come by each socket: of a zone so many small updates in one turn, or where there is no
        zone anything. The model has done it when this ends."""
        machine, steps = self.machine, []

        def step(sends, out, together=False, follows=(), fetch=None):
            wants = {}
            for to, octets, known in out:
                wants.setdefault(tuple(to.split()), []).append((octets, known))
            self.counts["requests"] += len(sends)
            steps.append({"sends": sends, "wants": wants, "together": together, "follows": follows, "fetch": fetch})

        def ask(socket_of, octets):
            return f"{socket_of[0]} {socket_of[1]} {octets.hex()}"

        many = count > 9 or not zone and self.random.random() < 0.1
        udp, tcp = [("udp", it) for it in ADDRESSES], [("tcp", str(it)) for it in range(44 if many else 5)]
        for it in tcp:
            machine.run(f"connect {ADDRESSES[int(it[1]) % 2]}")
            octets = self.maker.query()
            step([(it, octets)], machine.turn(ask(it, octets)))
        if zone:
            sends = {number: [self.small(zone)] for number in range(count)}
            step([(tcp[it], sends[it][0]) for it in sends], machine.turns(sends), together=True)
        for _ in range(0 if zone else self.random.choice([1, 2, 6, 15])):
            how = self.maker.pick(("burst", 6), ("together", 3), ("transfers", 1.5), ("fetch", 0.5))
            if how == "burst":
                it = self.random.choice(udp + tcp)
                octets = [self.maker.request(machine)[:65535] for _ in range(self.random.choice([1, 1, 3, 8]))]
                out = [line for one in octets for line in machine.turn(ask(it, one))]
                step([(it, one) for one in octets], out)
            elif how == "together":
                # A datagram is answered before the others or among them, and so it is a query, which sees the same in both.
                first = [(self.random.choice(udp), self.maker.query())] if self.random.random() < 0.5 else []
                out = [line for one in first for line in machine.turn(ask(*one))]
                most, share, sends = self.random.choice([1, 1, 4]), self.random.choice([0.8, 1]), {}
                for number in range(len(tcp)):
                    kind = self.maker.pick((lambda: self.maker.update(machine), 8), (lambda: self.maker.request(machine), 3))
                    if self.random.random() < share:
                        sends[number] = [kind()[:65535] for _ in range(self.random.randint(1, most))]
                out += machine.turns(sends)
                step(first + [(tcp[it], one) for it in sends for one in sends[it]], out, together=True)
            elif how == "transfers":
                zone, it = self.any_zone(), self.random.choice(tcp)
                for version in [None, *range(zone.shown + 1)]:
                    octets = self.asked(zone, version)
                    out = machine.turn(ask(it, octets))
                    is_given = len(out) > 0 and all(octets[3] & 15 == 0 for _, octets, _ in out)
                    follow = is_given and (version is None or zone.advances(version) < 2**31)
                    held = None if version is None else zone.versions[version]
                    step([(it, octets)], out, follows=[(it, zone.apex, held, zone.versions[zone.shown])] if follow else ())
            else:
                zone = self.any_zone()
                if model.allows(zone.spec["transfer"], (4, bytes([127, 0, 0, 1]))):
                    version = self.maker.pick((None, 2), (self.random.randrange(zone.shown + 1), 3))
                    if version is None or zone.advances(version) < 2**31:
                        file = None if version is None else zone_text(zone.versions[version], zone.apex)
                        number = machine.run("connect 127.0.0.1")[0].split()[1]
                        machine.turn(ask(("tcp", number), self.asked(zone, version)))
                        machine.run(f"close {number}")
                        step([], [], fetch=(zone.origin, file, zone_text(zone.versions[zone.shown], zone.apex)))
        return steps

    def small(self, zone):
        """An update whose entry takes one sector."""
        item = (self.maker.name(zone.apex), model.A, IN, 60, self.random.randbytes(4))
        return self.maker.message(self.random.randrange(65536), 5, (zone.apex, SOA, IN), [[], [item]])

    def lost(self):
        """Several entries that one sync makes durable, of which a crash keeps some; then one entry in the place of the first."""
        zone = self.any_zone()
        self.serve(zone, self.random.choice([2, 4, 5, 40] if zone.spec["j"] < 80 else [4, 40]))
        self.serve(zone, 1)
        self.dump()

    def asked(self, zone, version):
        """The request of one who holds a version, or nothing."""
        ident = self.random.randrange(65536)
        if version is None:
            return self.maker.message(ident, 0, (zone.apex, AXFR, IN), [[], []])
        owner, rtype, ttl, data = soa_of(zone.versions[version], zone.apex)
        return self.maker.message(ident, 0, (zone.apex, IXFR, IN), [[], [(owner, rtype, IN, ttl, data)]])

    def serve(self, only=None, count=0):
        self.counts["commands"] += 1
        if self.random.random() < 0.5:
            self.settings()
        self.configure()
        begun, old, known = [list(it.device.now) for it in self.zones], [it.old for it in self.zones], self.machine.known()
        self.log.begin(self.fails(25) if not any(old) else None)
        self.machine.begin()
        refused, steps = None, []
        try:
            for zone in self.zones:
                self.machine.open(zone)
            steps = self.steps(only, count)
        except Refused as it:
            refused = it.args
        how = self.interruption(["write", "sync", "reply"], 0.5) if refused is None and not only else None
        if count > 1 and refused is None and not self.log.fail:
            how = "crash", self.before_a_sync()
        self.tell(f"serve {len(steps)} steps", how)
        # What is known is what came, and of a crash what came before it.
        self.machine.forget(known)
        words = [*self.before(how), self.program, "serve", "config", "--turns", "unlimited"]
        with open(f"{self.folder}/log", "wb") as log:
            server = subprocess.Popen(words, cwd=self.folder, stderr=log)
        end = self.random.choice([signal.SIGKILL, signal.SIGTERM])
        try:
            is_partly = self.play(server, steps, refused, how)
        finally:
            server.send_signal(end)
            server.wait()
        self.counts["kills"] += is_partly
        if refused is None:
            self.traced(how, is_partly)
        self.adopt(begun, is_partly or refused is not None, old, how)

    def play(self, server, steps, refused, how):
        """Asks what is to be asked. Whether the server was killed meanwhile."""
        self.peers = {}
        deadline = time.monotonic() + PATIENCE
        while True:
            text = open(f"{self.folder}/log").read()
            has_ended = server.poll() is not None
            if has_ended or "listening on " in text:
                break
            if time.monotonic() > deadline:
                raise Differs(f"serve: it doesn't listen: {text}")
            time.sleep(0.005)
        if refused:
            server.wait(PATIENCE)
            expect("serve", (server.returncode, open(f"{self.folder}/log").read().splitlines()[-1:]), (refused[0], [refused[1]]))
            return False
        sockets, may_end = {}, how is not None and how[0] != "crash"
        self.crashes_after = how[1] if how and how[0] == "crash" else len(self.log.events)
        try:
            for place in ADDRESSES if not has_ended else ():
                it = sockets["udp", place] = socket.socket(socket.AF_INET, socket.SOCK_DGRAM)
                it.bind((place, 0))
                it.connect(("127.0.0.1", self.port))
                self.peers["udp", *it.getsockname()] = "udp", place
            for number, step in enumerate(steps):
                if not has_ended:
                    has_ended = self.step(server, sockets, step, number, may_end)
            if has_ended:
                server.wait(PATIENCE)
                if not may_end or server.returncode != -signal.SIGKILL:
                    raise Differs(f"serve ended with status {server.returncode}: {open(f'{self.folder}/log').read()[-300:]}")
            return has_ended
        finally:
            for it in sockets.values():
                it.close()

    def step(self, server, sockets, step, number, may_end):
        """One step. Whether the server has ended."""
        if step["fetch"]:
            return self.fetch(server, *step["fetch"], may_end)
        try:
            if step["together"]:
                wait_for(server, "S")
                server.send_signal(signal.SIGSTOP)
                wait_for(server, "Tt")
            for place, octets in step["sends"]:
                if place not in sockets:
                    it = sockets[place] = socket.create_connection(("127.0.0.1", self.port), 5, (ADDRESSES[int(place[1]) % 2], 0))
                    it.setsockopt(socket.IPPROTO_TCP, socket.TCP_NODELAY, 1)
                    self.peers["tcp", *it.getsockname()] = place
                sockets[place].sendall(octets if place[0] == "udp" else framed(octets))
        except OSError:
            pass
        finally:
            if step["together"]:
                time.sleep(0.01)
                server.send_signal(signal.SIGCONT)
        has_ended = False
        for place, wanted in step["wants"].items():
            came = self.receive(server, sockets.get(place), place[0], len(wanted))
            expect(f"step {number}: {place}: {[it[1].hex() for it in step['sends']][:9]}", [it.hex() for it in came], [it[0].hex() for it in wanted[: len(came)]])
            for _, known in wanted[: len(came)]:
                if known[0] <= self.crashes_after:
                    self.machine.learn(known)
            if len(came) < len(wanted):
                if server.poll() is None:
                    raise Differs(f"step {number}: {place}: {len(came)} of {len(wanted)} replies came")
                has_ended = True
            else:
                for where, apex, held, shown in step["follows"]:
                    if where == place and followed(apex, held, came) != shown:
                        raise Differs(f"step {number}: the transfer doesn't come to the version that is shown")
        return has_ended or server.poll() is not None

    def receive(self, server, sock, kind, count):
        """So many messages of a socket, or as many as come before the server has ended."""
        made, octets, deadline, last = [], b"", time.monotonic() + PATIENCE, False
        while sock is not None and len(made) < count and time.monotonic() < deadline:
            if not select.select([sock], [], [], 0.02)[0]:
                if last:
                    break
                last = server.poll() is not None
                continue
            try:
                piece = sock.recv(65535)
            except OSError:
                server.wait(PATIENCE)
                last = True
                continue
            if kind == "udp":
                made.append(piece)
                continue
            if not piece:
                break
            octets += piece
            while len(octets) >= 2 and len(octets) >= 2 + struct.unpack(">H", octets[:2])[0]:
                size = struct.unpack(">H", octets[:2])[0]
                made.append(octets[2 : 2 + size])
                octets = octets[2 + size :]
        if len(made) < count and kind == "tcp":
            try:
                server.wait(0.5)
            except subprocess.TimeoutExpired:
                pass
        if octets and server.poll() is None:
            raise Differs(f"{octets.hex()} came besides")
        return made

    def fetch(self, server, origin, held, wanted, may_end):
        words = []
        if held is not None:
            self.write("held", held)
            words = ["--since", "held"]
        ran = subprocess.run([self.program, "fetch", f"127.0.0.1:{self.port}", origin, *words], cwd=self.folder, capture_output=True, text=True, timeout=60)
        if may_end and ran.returncode:
            server.wait(PATIENCE)
            return True
        expect(f"fetch {origin} {words}", (ran.returncode, ran.stdout), (0, wanted))
        return server.poll() is not None

    def run(self, length):
        self.init()
        for _ in range(length):
            kinds = (self.serve, 8), (self.load, 3), (self.dump, 1), (self.dump_at, 1), (self.diff, 1), (self.history, 1), (self.verify, 1.5), (self.migrate, 1), (self.lost, 1), (self.again, 0.2)
            self.maker.pick(*kinds)()


def one(program, seed, length):
    folder = tempfile.mkdtemp(prefix="files-")
    try:
        runner = Runner(program, seed, folder)
        try:
            runner.run(length)
            return runner.counts
        except (Differs, AssertionError, subprocess.TimeoutExpired) as it:
            kept = f"/tmp/files-{seed}"
            shutil.rmtree(kept, ignore_errors=True)
            shutil.copytree(folder, kept)
            with open(f"{kept}/commands", "w") as file:
                file.write("".join(f"{line}\n" for line in runner.done))
            print(f"seed {seed}: after {len(runner.done)} commands, {runner.done[-1:]}: {type(it).__name__} {it}", flush=True)
            return None
    finally:
        shutil.rmtree(folder, ignore_errors=True)


def main(program, first, count, length=14):
    sums, agreed = {}, 0
    for seed in range(int(first), int(first) + int(count)):
        counts = one(os.path.abspath(program), seed, int(length))
        if counts:
            agreed += 1
            sums = {it: sums.get(it, 0) + count for it, count in counts.items()}
    told = ", ".join(f"{count} {it}" for it, count in sums.items())
    print(f"{agreed} of {count} runs agree: {told}" if agreed != int(count) else f"{agreed} runs agree: {told}")
    return agreed != int(count)


if __name__ == "__main__":
    sys.exit(main(*sys.argv[1:]))
