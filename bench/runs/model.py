"""A plain and slow primary name server, for `run` to compare the program with: whole sets in place of trees, whole lists in place of
cursors, written apart from the crates, and nothing taken from them. One `Machine` runs one script of `dnsprim replay`.
"""
import hashlib
import struct

NINE = {1: "A", 2: "NS", 5: "CNAME", 6: "SOA", 12: "PTR", 15: "MX", 16: "TXT", 28: "AAAA", 33: "SRV"}
A, NS, CNAME, SOA, PTR, MX, TXT, AAAA, SRV = NINE
IXFR, AXFR, MAILB, MAILA, ANY = 251, 252, 253, 254, 255
IN, NONE = 1, 254
NOERROR, FORMERR, SERVFAIL, NXDOMAIN, NOTIMP, REFUSED, YXDOMAIN, YXRRSET, NXRRSET, NOTAUTH, NOTZONE = range(11)
HALF = 2**31


class Unreadable(Exception):
    pass


# Names: tuples of labels in lower case, the leftmost first.


def plain_name(name):
    return b"".join(bytes([len(it)]) + it for it in name) + b"\0"


def order(name):
    return tuple(reversed(name))


def is_under(name, above):
    return len(above) <= len(name) and name[len(name) - len(above) :] == above


def read_name(octets, at):
    """The name at an offset, and the offset after it; each pointer leads below the run of labels that it ends (RFC 1035 section 4.1.4)."""
    labels, end, run, size = [], None, at, 1
    while True:
        if at >= len(octets):
            raise Unreadable
        length = octets[at]
        if length >= 192:
            if at + 1 >= len(octets):
                raise Unreadable
            target = (length & 63) << 8 | octets[at + 1]
            if target < 12 or target >= run:
                raise Unreadable
            end, at, run = end or at + 2, target, target
        elif length >= 64:
            raise Unreadable
        elif length == 0:
            return tuple(labels), end or at + 1
        else:
            if at + 1 + length > len(octets):
                raise Unreadable
            labels.append(octets[at + 1 : at + 1 + length].lower())
            size += 1 + length
            if size > 255:
                raise Unreadable
            at += 1 + length


def read_rdata(octets, at, end, rtype):
    """The data of a record without pointers."""
    if at == end or rtype not in NINE:
        return octets[at:end]
    if rtype in (A, AAAA):
        if end - at != (4 if rtype == A else 16):
            raise Unreadable
        return octets[at:end]
    if rtype == TXT:
        place = at
        while place < end:
            place += 1 + octets[place]
        if place != end:
            raise Unreadable
        return octets[at:end]
    front, names, behind = {NS: (0, 1, 0), CNAME: (0, 1, 0), PTR: (0, 1, 0), MX: (2, 1, 0), SRV: (6, 1, 0), SOA: (0, 2, 20)}[rtype]
    if at + front > end:
        raise Unreadable
    made, place = octets[at : at + front], at + front
    for _ in range(names):
        if place >= end:
            raise Unreadable
        name, place = read_name(octets, place)
        made += plain_name(name)
    if place + behind != end:
        raise Unreadable
    return made + octets[place:end]


class Message:
    """A whole message, or Unreadable."""

    def __init__(self, octets):
        if len(octets) < 12:
            raise Unreadable
        self.id, self.bits, *counts = struct.unpack(">6H", octets[:12])
        self.opcode, self.rd = self.bits >> 11 & 15, self.bits >> 8 & 1
        at, self.questions = 12, []
        for _ in range(counts[0]):
            begun = at
            name, at = read_name(octets, at)
            if at + 4 > len(octets):
                raise Unreadable
            self.questions.append((name, *struct.unpack(">2H", octets[at : at + 4]), octets[begun : at + 4]))
            at += 4
        self.sections = []
        for count in counts[1:]:
            records = []
            for _ in range(count):
                owner, at = read_name(octets, at)
                if at + 10 > len(octets):
                    raise Unreadable
                rtype, rclass, ttl, length = struct.unpack(">HHIH", octets[at : at + 10])
                at += 10
                if at + length > len(octets):
                    raise Unreadable
                records.append((owner, rtype, rclass, ttl, read_rdata(octets, at, at + length, rtype)))
                at += length
            self.sections.append(records)
        if at != len(octets):
            raise Unreadable


# Sets of records: {(owner, type, data): TTL}.


def in_order(records):
    """The records of a set, (owner, type, TTL, data), by name, type and data."""
    return [(o, t, records[o, t, d], d) for o, t, d in sorted(records, key=lambda it: (order(it[0]), it[1], it[2]))]


def plain_record(record):
    owner, rtype, ttl, data = record
    return plain_name(owner) + struct.pack(">HIH", rtype, ttl, len(data)) + data


def soa_of(records, apex):
    return next((apex, SOA, ttl, d) for (o, t, d), ttl in records.items() if o == apex and t == SOA)


def serial_of(soa):
    return struct.unpack(">I", soa[3][-20:-16])[0]


def with_serial(soa, serial):
    return (*soa[:3], soa[3][:-20] + struct.pack(">I", serial) + soa[3][-16:])


def greater(i, j):
    return 0 < (i - j) % 2**32 < HALF


def owned(records, name, rtype=ANY):
    found = [(o, t, ttl, d) for (o, t, d), ttl in records.items() if o == name and (rtype == ANY or t == rtype)]
    return sorted(found, key=lambda it: (it[1], it[3]))


class Text:
    """A message that is being written, its names compressed."""

    def __init__(self, ident, bits, question=None):
        self.ident, self.bits, self.counts, self.places = ident, bits, [0, 0, 0, 0], {}
        self.octets = bytes(12)
        if question is not None:
            self.counts[0] = 1
            name, _ = read_name(bytes(12) + question, 12)
            self.note(name)
            self.octets += question

    def note(self, name):
        at = len(self.octets)
        for i in range(len(name)):
            if at < 16384:
                self.places.setdefault(name[i:], at)
            at += 1 + len(name[i])

    def name(self, name):
        cut = next((i for i in range(len(name)) if name[i:] in self.places), None)
        if cut is None:
            self.note(name)
            self.octets += plain_name(name)
        else:
            at, made = len(self.octets), b""
            for i in range(cut):
                if at + len(made) < 16384:
                    self.places.setdefault(name[i:], at + len(made))
                made += bytes([len(name[i])]) + name[i]
            self.octets += made + struct.pack(">H", 0xC000 | self.places[name[cut:]])

    def record(self, section, record):
        owner, rtype, ttl, data = record
        self.counts[section] += 1
        self.name(owner)
        self.octets += struct.pack(">HHI", rtype, IN, ttl)
        begun = len(self.octets)
        self.octets += bytes(2)
        if rtype in (NS, CNAME, SOA, PTR, MX) and data:
            front = 2 if rtype == MX else 0
            self.octets += data[:front]
            at = front
            for _ in range(2 if rtype == SOA else 1):
                name, at = read_plain(data, at)
                self.name(name)
            self.octets += data[at:]
        else:
            self.octets += data
        length = struct.pack(">H", len(self.octets) - begun - 2)
        self.octets = self.octets[:begun] + length + self.octets[begun + 2 :]

    def done(self, more=0):
        return struct.pack(">6H", self.ident, self.bits | more, *self.counts) + self.octets[12:]

    def copy(self):
        other = object.__new__(Text)
        other.ident, other.bits, other.counts, other.places, other.octets = self.ident, self.bits, list(self.counts), dict(self.places), self.octets
        return other


def read_plain(data, at):
    labels = []
    while data[at]:
        labels.append(data[at + 1 : at + 1 + data[at]])
        at += 1 + data[at]
    return tuple(labels), at + 1


def header_alone(octets, rcode):
    opcode = octets[2] >> 3 & 15
    return octets[:2] + bytes([0x80 | opcode << 3 | (octets[2] & 1 if opcode == 0 else 0), rcode]) + bytes(8)


# Queries (RFC 1034 section 4.3.2, RFC 4592).


class Lookup:
    def __init__(self, zones):
        self.zones = zones  # apex to records

    def zone_of(self, name):
        return max((apex for apex in self.zones if is_under(name, apex)), key=len, default=None)

    def search(self, name, qtype):
        """Where a name is found: the zone, what was found, and the records, their owner as it goes out."""
        apex = self.zone_of(name)
        records = self.zones[apex]
        names = {o for o, _, _ in records}
        exists = lambda it: any(is_under(o, it) for o in names)
        for length in range(len(apex) + 1, len(name) + 1):
            cut = name[len(name) - length :]
            if owned(records, cut, NS):
                return apex, "referral", owned(records, cut, NS)
        node = name
        if not exists(name):
            encloser = next(name[i:] for i in range(1, len(name) + 1) if exists(name[i:]))
            node = (b"*",) + encloser
            if not exists(node):
                return apex, "no name", []
        aliases = owned(records, node, CNAME)
        if aliases and qtype not in (CNAME, ANY):
            return apex, "alias", [(name, *it[1:]) for it in aliases]
        found = [(name, *it[1:]) for it in owned(records, node, qtype)]
        return apex, "answers" if found else "no data", found

    def chain(self, name, qtype):
        found, seen = [], []
        while len(found) < 8 and name not in seen and self.zone_of(name) is not None:
            seen.append(name)
            found.append(self.search(name, qtype))
            if found[-1][1] != "alias":
                break
            name, _ = read_plain(found[-1][2][0][3], 0)
        return found

    def sections(self, name, qtype):
        found = self.chain(name, qtype)
        answer = [(apex, it) for apex, kind, records in found if kind in ("alias", "answers") for it in records]
        authority, rcode = [], NOERROR
        apex, kind, records = found[-1]
        if kind == "referral":
            authority = [(apex, it) for it in records]
        if kind in ("no name", "no data"):
            soa = soa_of(self.zones[apex], apex)
            minimum = struct.unpack(">I", soa[3][-4:])[0]
            authority = [(apex, (apex, SOA, min(soa[2], minimum), soa[3]))]
            rcode = NXDOMAIN if kind == "no name" else NOERROR
        stand, additional = [it for _, it in answer + authority], []
        for apex, (_, rtype, _, data) in answer + authority:
            if rtype in (NS, MX, SRV):
                host, _ = read_plain(data, {NS: 0, MX: 2, SRV: 6}[rtype])
                for it in owned(self.zones[apex], host, A) + owned(self.zones[apex], host, AAAA):
                    if it not in stand:
                        stand.append(it)
                        additional.append(it)
        return found[0][1] != "referral", rcode, [it for _, it in answer], [it for _, it in authority], additional

    def reply(self, message, by_udp):
        name, qtype, qclass, question = message.questions[0]
        bits = 0x8000 | message.rd << 8
        if qtype in (MAILA, MAILB):
            return Text(message.id, bits | NOTIMP, question).done()
        if qclass != IN or self.zone_of(name) is None:
            return Text(message.id, bits | REFUSED, question).done()
        is_ours, rcode, *sections = self.sections(name, qtype)
        bits |= is_ours << 10 | rcode
        limit = 512 if by_udp else 65535
        text = Text(message.id, bits, question)
        for section, records in enumerate(sections[:2], 1):
            for it in records:
                text.record(section, it)
        short = text.done()
        for it in sections[2]:
            text.record(3, it)
        whole = text.done()
        if len(whole) <= limit:
            return whole
        if not by_udp:
            return Text(message.id, 0x8000 | message.rd << 8 | SERVFAIL, question).done()
        is_referral = bool(sections[1]) and sections[1][0][1] == NS
        if not is_referral and len(short) <= limit:
            return short
        return Text(message.id, bits | 0x200, question).done()


# Updates (RFC 2136 section 3).


def is_data_type(rtype):
    return 1 <= rtype <= 65534 and rtype != 41 and not 128 <= rtype <= 255


def prerequisites_fail(records, apex, items):
    gathered = {}
    for name, rtype, rclass, ttl, data in items:
        if ttl:
            return FORMERR
        if not is_under(name, apex):
            return NOTZONE
        if rclass in (ANY, NONE):
            if data:
                return FORMERR
            there = bool(owned(records, name, rtype))
            if rclass == ANY and not there:
                return NXDOMAIN if rtype == ANY else NXRRSET
            if rclass == NONE and there:
                return YXDOMAIN if rtype == ANY else YXRRSET
        elif rclass == IN:
            if rtype in NINE and not data:
                return FORMERR
            gathered.setdefault((name, rtype), set()).add(data)
        else:
            return FORMERR
    for (name, rtype), wanted in gathered.items():
        if {it[3] for it in owned(records, name, rtype) if it[1] == rtype} != wanted:
            return NXRRSET
    return None


def prescan_fails(apex, items):
    for name, rtype, rclass, ttl, data in items:
        if not is_under(name, apex):
            return NOTZONE
        if rclass == IN:
            if 251 <= rtype <= 255 or rtype in NINE and not data:
                return FORMERR
            if not is_data_type(rtype) or len(data) > 4096 or rtype == NS and name[:1] == (b"*",):
                return REFUSED
        elif rclass == ANY:
            if ttl or data or 251 <= rtype <= 254:
                return FORMERR
        elif rclass == NONE:
            if ttl or 251 <= rtype <= 255 or rtype in NINE and not data:
                return FORMERR
        else:
            return FORMERR
    return None


def after_item(records, apex, item):
    name, rtype, rclass, ttl, data = item
    made = dict(records)
    here = owned(records, name)
    if rclass == IN:
        types = {it[1] for it in here}
        if rtype == CNAME and types - {CNAME} or rtype != CNAME and CNAME in types:
            return made
        if rtype == SOA:
            old = [it for it in here if it[1] == SOA]
            if not old or not greater(serial_of((0, 0, 0, data)), serial_of(old[0])):
                return made
        if rtype in (CNAME, SOA):
            for it in here:
                if it[1] == rtype:
                    del made[name, rtype, it[3]]
        made[name, rtype, data] = ttl
    elif rclass == ANY:
        for it in here:
            if rtype in (ANY, it[1]) and not (name == apex and it[1] in (SOA, NS)):
                del made[name, it[1], it[3]]
    elif rtype != SOA and (name, rtype, data) in made:
        if not (rtype == NS and name == apex and len(owned(records, apex, NS)) == 1):
            del made[name, rtype, data]
    return made


def judge(records, apex, message):
    """A response code, or the next set, which is the same one where nothing changes."""
    fault = prerequisites_fail(records, apex, message.sections[0])
    if fault is None:
        fault = prescan_fails(apex, message.sections[1])
    if fault is not None:
        return fault
    made = records
    for item in message.sections[1]:
        made = after_item(made, apex, item)
    if made == records:
        return records
    old, new = soa_of(records, apex), soa_of(made, apex)
    if serial_of(old) == serial_of(new):
        made = {it: ttl for it, ttl in made.items() if it[1] != SOA}
        raised = with_serial(new, (serial_of(new) + 1) % 2**32)
        made[apex, SOA, raised[3]] = raised[2]
    elif not greater(serial_of(new), serial_of(old)):
        return REFUSED
    return made


def change_of(old, new, apex):
    """Both SOAs, and what goes and comes beside them, in order."""
    gone = {it: ttl for it, ttl in old.items() if it[1] != SOA and new.get(it) != ttl}
    come = {it: ttl for it, ttl in new.items() if it[1] != SOA and old.get(it) != ttl}
    return soa_of(old, apex), in_order(gone), soa_of(new, apex), in_order(come)


# Devices and stores: sectors of 512 octets.


class Stopped(Exception):
    pass


class Failed(Exception):
    pass


class Plan:
    """Which write or sync fails, and which is the last, over all devices."""

    def __init__(self):
        self.reset()

    def reset(self):
        self.fail = self.stop = None
        self.stopped = False

    def tick(self):
        if self.stopped:
            return "stopped"
        counts = {}
        for what in ("fail", "stop"):
            left = getattr(self, what)
            if left is not None:
                setattr(self, what, left - 1 if left > 1 else None)
                counts[what] = left == 1
        if counts.get("stop"):
            self.stopped = True
            return "stop"
        return "fail" if counts.get("fail") else "done"


class Device:
    def __init__(self, size, plan):
        self.durable, self.pending, self.plan = [bytes(512)] * size, [], plan

    def write(self, at, sector):
        assert len(sector) == 512
        how = self.plan.tick()
        if how in ("done", "stop"):
            self.pending.append((at, sector))
        if how != "done":
            raise Failed

    def sync(self):
        if self.plan.tick() != "done":
            raise Failed
        for at, sector in self.pending:
            self.durable[at] = sector
        self.pending = []

    def read(self, at):
        if self.plan.stopped:
            raise Failed
        return next((sector for place, sector in reversed(self.pending) if place == at), self.durable[at])

    def crash(self, keep):
        for number, (at, sector) in enumerate(self.pending, 1):
            if keep == "all" or number in keep:
                self.durable[at] = sector
        self.pending = []


def digest(at, octets):
    return hashlib.sha256(struct.pack(">Q", at) + octets).digest()[:8]


def sector(at, tag, opened, sequence, number, payload):
    """A sealed sector for this place."""
    octets = (tag + struct.pack(">QQI", opened, sequence, number) + payload).ljust(504, b"\0")
    assert len(octets) == 504
    return octets + digest(at, octets)


def is_own(at, octets):
    return octets == bytes(512) or octets[504:] == digest(at, octets[:504])


def entry_octets(change):
    old, gone, new, come = change
    made = plain_record(old) + plain_record(new)
    for records in (gone, come):
        made += struct.pack(">I", len(records)) + b"".join(map(plain_record, records))
    return made


def entry_sectors(length):
    return 1 + max(0, -(-(length - 476) // 480))


def snapshot_octets(records):
    return b"".join(map(plain_record, in_order(records)))


def snapshot_sectors(length):
    return -(-length // 480)


def split_record(octets, at):
    owner, at = read_plain(octets, at)
    rtype, ttl, length = struct.unpack(">HIH", octets[at : at + 8])
    return (owner, rtype, ttl, octets[at + 8 : at + 8 + length]), at + 8 + length


class Store:
    """What one device keeps: a base, the changes after it, and where the next entry goes."""

    def __init__(self, device, apex, s, j):
        self.device, self.apex, self.s, self.j = device, apex, s, j
        self.closed = False

    def root(self, bank_opened, length):
        apex = plain_name(self.apex)
        payload = struct.pack(">QQIIB", bank_opened, length, self.s, self.j, self.clear) + apex
        return sector(0, b"DPR2", self.opened, self.base, self.bank, payload)

    def format(self, records):
        self.opened = self.base = self.bank = 0
        self.clear = 1
        octets = snapshot_octets(records)
        self.device.write(0, bytes(512))
        self.device.sync()
        parts = self.parts(0, octets, 0, 0)
        for at in range(1, 1 + 2 * (self.s + self.j)):
            self.device.write(at, parts[at - 1] if at - 1 < len(parts) else bytes(512))
        self.device.sync()
        self.device.write(0, self.root(0, len(octets)))
        self.device.sync()

    def parts(self, bank, octets, opened, base):
        cut = [octets[at : at + 480] for at in range(0, len(octets), 480)]
        return [sector(self.first(bank) + it, b"DPS2", opened, base, it, part) for it, part in enumerate(cut)]

    def first(self, bank):
        return 1 + bank * (self.s + self.j)

    def read(self, at):
        octets = self.device.read(at)
        assert is_own(at, octets), "a sector that is not sealed"
        return octets

    def look(self):
        """The number of the base, and the sets from the base on. Nothing is written."""
        root = self.read(0)
        assert root[:4] == b"DPR2"
        self.opened, self.base, self.bank, bank_opened, length = struct.unpack(">QQIQQ", root[4:40])
        self.clear = root[48]
        octets = b"".join(self.read(self.first(self.bank) + it)[24:504] for it in range(snapshot_sectors(length)))[:length]
        records, at = {}, 0
        while at < length:
            (owner, rtype, ttl, data), at = split_record(octets, at)
            records[owner, rtype, data] = ttl
        sets, self.entries, place, opened = [records], [], 0, bank_opened
        while place < self.j:
            head = self.read(self.first(self.bank) + self.s + place)
            count, sequence, bodies, size = struct.unpack(">QQII", head[4:28])
            taken = entry_sectors(size)
            if head[:4] != b"DPH2" or sequence != self.base + len(sets) or count < opened or bodies != taken - 1 or place + taken > self.j:
                break
            octets, opened = head[28:504], count
            for it in range(bodies):
                body = self.read(self.first(self.bank) + self.s + place + 1 + it)
                assert body[:24] == b"DPB2" + struct.pack(">QQI", count, sequence, it), "a body of another entry"
                octets += body[24:504]
            sets.append(applied(sets[-1], octets[:size]))
            self.entries.append(octets[:size])
            place += taken
        self.used, self.staged, self.bank_opened, self.length = place, [], bank_opened, length
        return self.base, sets

    def open(self):
        self.device.sync()
        found = self.look()
        if not self.clear:
            for at in range(self.s + self.j):
                self.device.write(self.first(1 - self.bank) + at, bytes(512))
            self.device.sync()
            self.clear = 1
        self.opened += 1
        self.device.write(0, self.root(self.bank_opened, self.length))
        self.device.sync()
        return found

    def left(self):
        return self.j - self.used - sum(entry_sectors(len(it)) for it in self.staged)

    def entry(self, at, octets, sequence):
        """The head and the bodies of an entry whose first sector is this one."""
        cut = [octets[it : it + 480] for it in range(476, len(octets), 480)]
        head = sector(at, b"DPH2", self.opened, sequence, len(cut), struct.pack(">I", len(octets)) + octets[:476])
        return head, [sector(at + 1 + it, b"DPB2", self.opened, sequence, it, body) for it, body in enumerate(cut)]

    def stage(self, octets):
        self.staged.append(octets)

    def flush(self):
        """Bodies, a sync where there are any, heads, a sync. Whether it was done."""
        if not self.staged:
            return True
        heads, place = [], self.first(self.bank) + self.s + self.used
        try:
            has_bodies = False
            for number, octets in enumerate(self.staged, self.base + len(self.entries) + 1):
                head, bodies = self.entry(place, octets, number)
                heads.append((place, head))
                for it, body in enumerate(bodies):
                    self.device.write(place + 1 + it, body)
                    has_bodies = True
                place += 1 + len(bodies)
            if has_bodies:
                self.device.sync()
            for at, head in heads:
                self.device.write(at, head)
            self.device.sync()
        except Failed:
            self.closed = True
            return False
        self.used, self.entries, self.staged = place - self.first(self.bank) - self.s, self.entries + self.staged, []
        return True

    def checkpoint(self, keep, room, base_set):
        """`base_set` gives the set of a version. Whether it was done."""
        kept = 0
        while kept < min(keep, len(self.entries)):
            if sum(entry_sectors(len(it)) for it in self.entries[len(self.entries) - kept - 1 :]) > self.j - room:
                break
            kept += 1
        base = self.base + len(self.entries) - kept
        entries, bank = self.entries[len(self.entries) - kept :], 1 - self.bank
        octets = snapshot_octets(base_set(base))
        try:
            for it, part in enumerate(self.parts(bank, octets, self.opened, base)):
                self.device.write(self.first(bank) + it, part)
            place = self.first(bank) + self.s
            for number, entry in enumerate(entries, base + 1):
                head, bodies = self.entry(place, entry, number)
                for it in [head, *bodies]:
                    self.device.write(place, it)
                    place += 1
            self.device.sync()
            old = self.bank, self.base
            self.bank, self.base = bank, base
            try:
                self.device.write(0, self.root(self.opened, len(octets)))
                self.device.sync()
            except Failed:
                self.bank, self.base = old
                raise
        except Failed:
            self.closed = True
            return False
        self.entries, self.used = entries, place - self.first(bank) - self.s
        return True


def applied(records, octets):
    old, at = split_record(octets, 0)
    new, at = split_record(octets, at)
    made = dict(records)
    assert made.pop((old[0], SOA, old[3])) == old[2]
    for adds in (False, True):
        count = struct.unpack(">I", octets[at : at + 4])[0]
        at += 4
        for _ in range(count):
            (owner, rtype, ttl, data), at = split_record(octets, at)
            if adds:
                assert (owner, rtype, data) not in made
                made[owner, rtype, data] = ttl
            else:
                assert made.pop((owner, rtype, data)) == ttl
    made[new[0], SOA, new[3]] = new[2]
    return made


# The machine.


def allows(prefixes, address):
    """Whether a list has a prefix of an address: (family, octets) and (family, octets, length)."""
    family, octets = address
    bits = lambda it: "".join(f"{o:08b}" for o in it)
    return any(f == family and bits(p)[:n] == bits(octets)[:n] for f, p, n in prefixes)


class Zone:
    """The versions of a zone, from the loaded one on, and its store."""

    def __init__(self, spec, records, plan):
        self.spec, self.apex = spec, spec["apex"]
        self.device = Device(1 + 2 * (spec["s"] + spec["j"]), plan)
        self.store = Store(self.device, self.apex, spec["s"], spec["j"])
        self.store.format(records)
        self.versions, self.shown, self.acknowledged = [records], 0, 0

    def open(self):
        self.store = Store(self.device, self.apex, self.spec["s"], self.spec["j"])
        base, sets = self.store.open()
        newest = base + len(sets) - 1
        # What the page promises: a prefix of the accepted updates, with all that was shown or answered NOERROR in it.
        assert sets == self.versions[base : newest + 1], "other versions than those that were accepted"
        assert newest >= max(self.shown, self.acknowledged), "a version was lost"
        self.versions, self.shown = self.versions[: newest + 1], newest

    def serials(self):
        return [serial_of(soa_of(it, self.apex)) for it in self.versions]


class Machine:
    def __init__(self, zones):
        """`zones`: for each a dict of apex, origin, s, j, keep, update, transfer, and its records."""
        self.plan = Plan()
        self.zones = [Zone(spec, records, self.plan) for spec, records in zones]
        self.begin()
        for it in self.zones:
            it.open()

    def begin(self):
        self.waiting, self.free, self.connections, self.next = [], [], {}, 0

    def zone_at(self, apex):
        return next((it for it in self.zones if it.apex == apex), None)

    def shown(self):
        return {it.apex: it.versions[it.shown] for it in self.zones}

    # Events; each answers the lines that are printed.

    def run(self, line):
        if self.plan.stopped and line.split()[0] not in ("crash", "reopen"):
            return ["stopped"]
        self.out, self.noted = [], None
        word, *rest = line.split()
        getattr(self, word)(*rest)
        if self.plan.stopped:
            return ["stopped"]
        if self.noted is not None:
            self.out.append(f"device {self.noted.spec['origin']}")
        return self.out

    def say(self, to, octets):
        if to is not None:
            self.out.append(f"{to} {octets.hex()}")

    def fails(self, zone):
        self.noted = self.noted or zone

    def udp(self, address, octets):
        self.request(f"udp {shown_address(address)}", read_address(address), bytes.fromhex(octets), None)

    def connect(self, address):
        if len(self.connections) >= 64:
            return self.out.append("conn none")
        number = self.free.pop() if self.free else self.next
        self.next = max(self.next, number + 1)
        self.connections[number] = {"address": read_address(address), "messages": None}
        self.out.append(f"conn {number}")

    def tcp(self, number, octets):
        connection = self.connections.get(int(number))
        if connection:
            self.request(f"tcp {int(number)}", connection["address"], bytes.fromhex(octets), connection)

    def close(self, number):
        if self.connections.pop(int(number), None):
            self.free.append(int(number))
            for it in self.waiting:
                if it["to"] == f"tcp {int(number)}":
                    it["to"] = None

    def pump(self, number):
        connection = self.connections.get(int(number))
        if connection and connection["messages"]:
            self.say(f"tcp {int(number)}", connection["messages"].pop(0))

    def flush(self):
        for zone in self.zones:
            if zone.store.closed:
                continue
            if zone.store.flush():
                zone.shown = len(zone.versions) - 1
            else:
                self.fails(zone)
        for it in self.waiting:
            if it["zone"].store.closed:
                it["rcode"] = SERVFAIL
            self.say(it["to"], header_alone(it["octets"], it["rcode"]))
            if it["rcode"] == NOERROR:
                it["zone"].acknowledged = max(it["zone"].acknowledged, it["version"])
        self.waiting = []

    def checkpoint(self, origin, room=0):
        zone = next(it for it in self.zones if it.spec["origin"] == origin)
        self.flush()
        self.later_base(zone, room)

    def later_base(self, zone, room):
        if not zone.store.closed and not zone.store.checkpoint(zone.spec["keep"], room, lambda it: zone.versions[it]):
            self.fails(zone)

    def fail(self, number):
        self.plan.fail = int(number)

    def stop(self, number):
        self.plan.stop = int(number)

    def crash(self, *lists, stop=None):
        keep = {}
        for it in lists:
            origin, numbers = it.rsplit("=", 1)
            keep[origin] = numbers if numbers == "all" else {int(n) for n in numbers.split(",")}
        self.plan.reset()
        self.plan.stop = stop
        self.begin()
        for zone in self.zones:
            zone.device.crash(keep.get(zone.spec["origin"], set()))
        try:
            for zone in self.zones:
                zone.open()
        except Failed:
            assert self.plan.stopped
            return
        self.plan.reset()
        for zone in self.zones:
            self.out.append(f"recovered {zone.spec['origin']} version {zone.shown} serial {zone.serials()[-1]}")

    def reopen(self, number, *lists):
        self.crash(*lists, stop=int(number))

    # Requests.

    def request(self, to, address, octets, connection):
        if len(octets) < 12 or octets[2] & 0x80:
            return
        opcode = octets[2] >> 3 & 15
        if opcode not in (0, 5):
            return self.say(to, header_alone(octets, NOTIMP))
        try:
            if connection is None and len(octets) > 512:
                raise Unreadable
            message = Message(octets)
            answers, authorities, additional = message.sections
            if additional or len(message.questions) != 1:
                raise Unreadable
            if opcode == 0 and (answers or authorities and message.questions[0][1] != IXFR):
                raise Unreadable
        except Unreadable:
            return self.say(to, header_alone(octets, FORMERR))
        if opcode == 5:
            return self.update(to, address, octets, message)
        if message.questions[0][1] in (IXFR, AXFR):
            return self.transfer(to, address, octets, message, connection)
        self.say(to, Lookup(self.shown()).reply(message, connection is None))

    def update(self, to, address, octets, message):
        if len(self.waiting) >= 32:
            self.flush()
        name, qtype, qclass, _ = message.questions[0]
        zone = self.zone_at(name)
        at_once = None
        if qtype != SOA:
            at_once = FORMERR
        elif qclass != IN or zone is None:
            at_once = NOTAUTH
        elif not allows(zone.spec["update"], address):
            at_once = REFUSED
        elif zone.store.closed:
            at_once = SERVFAIL
        if at_once is not None:
            return self.say(to, header_alone(octets, at_once))
        tip = zone.versions[-1]
        made = judge(tip, zone.apex, message)
        rcode = made if isinstance(made, int) else NOERROR
        if rcode == NOERROR and made != tip:
            entry = entry_octets(change_of(tip, made, zone.apex))
            size = entry_sectors(len(entry))
            if len(made) > 65536 or size > zone.spec["j"] or snapshot_sectors(len(snapshot_octets(made))) > zone.spec["s"]:
                rcode = SERVFAIL
            else:
                if size > zone.store.left():
                    self.flush()
                    self.later_base(zone, size)
                    if zone.store.closed:
                        return self.say(to, header_alone(octets, SERVFAIL))
                zone.store.stage(entry)
                zone.versions.append(made)
        self.waiting.append({"to": to, "octets": octets, "rcode": rcode, "zone": zone, "version": len(zone.versions) - 1})

    def transfer(self, to, address, octets, message, connection):
        name, qtype, qclass, question = message.questions[0]
        client = message.sections[1]
        if qtype == AXFR and connection is None:
            return self.say(to, header_alone(octets, FORMERR))
        if qtype == IXFR:
            if len(client) != 1 or client[0][0] != name or client[0][1] != SOA or client[0][2] != IN or not client[0][4]:
                return self.say(to, header_alone(octets, FORMERR))
        zone, bits = self.zone_at(name), 0x8000 | message.rd << 8
        if qclass != IN or zone is None:
            return self.say(to, Text(message.id, bits | NOTAUTH, question).done())
        if not allows(zone.spec["transfer"], address) or connection is not None and connection["messages"]:
            return self.say(to, Text(message.id, bits | REFUSED, question).done())
        records = self.form(zone, serial_of((0, 0, 0, client[0][4])) if qtype == IXFR else None)
        bits |= 0x400
        if connection is not None:
            connection["messages"] = messages_of(message.id, bits, question, records)
            return
        for some in (records, [soa_of(zone.versions[zone.shown], zone.apex)]):
            text = Text(message.id, bits, question)
            for it in some:
                text.record(1, it)
                if len(text.octets) > 512:
                    break
            if len(text.octets) <= 512:
                return self.say(to, text.done())
        self.say(to, Text(message.id, bits | 0x200, question).done())

    def form(self, zone, client):
        shown, serials, apex = zone.shown, zone.serials(), zone.apex
        soa = soa_of(zone.versions[shown], apex)
        full = [soa] + [it for it in in_order(zone.versions[shown]) if it[1] != SOA] + [soa]
        if client is None:
            return full
        mine = serials[shown]
        if client == mine or greater(client, mine):
            return [soa]
        if not greater(mine, client):
            return full
        advances = 0
        for version in range(shown - 1, zone.store.base - 1, -1):
            advances += (serials[version + 1] - serials[version]) % 2**32
            if advances >= HALF:
                break
            if serials[version] == client:
                steps = []
                for it in range(version, shown):
                    old, gone, new, come = change_of(zone.versions[it], zone.versions[it + 1], apex)
                    steps += [old, *gone, new, *come]
                return [soa, *steps, soa]
        return full


def messages_of(ident, bits, question, records):
    """As many records in a message as 16,384 octets hold, the question in the first alone."""
    made, text = [], Text(ident, bits, question)
    for it in records:
        longer = text.copy()
        longer.record(1, it)
        if len(longer.octets) > 16384 and text.counts[1]:
            made.append(text.done())
            longer = Text(ident, bits)
            longer.record(1, it)
        text = longer
    return [*made, text.done()]


def read_address(text):
    """An address: its family and its octets."""
    if ":" not in text:
        return 4, bytes(int(it) for it in text.split("."))
    front, _, behind = text.partition("::")
    groups = lambda it: [int(g, 16) for g in it.split(":") if g]
    first, last = groups(front), groups(behind)
    return 6, struct.pack(">8H", *first, *[0] * (8 - len(first) - len(last)), *last)


def shown_address(text):
    """An address as it is printed: one of IPv6 as eight groups."""
    family, octets = read_address(text)
    return text if family == 4 else ":".join(f"{it:x}" for it in struct.unpack(">8H", octets))
