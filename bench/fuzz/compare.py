"""What `run` begins and ends with. `compare.py make FOLDER` writes the inputs to begin with, and the files that the programs read.
`compare.py compare FOLDER TARGET PROGRAM` takes each input that was kept, also for a crash or a hang, and of the last three targets a sample
of those that were taken or replied to, each with another outcome. It compares what the instrumented program made of it with what PROGRAM
prints, the plain one, and with bench/runs/model.py; for master files with dnspython, for configurations with tomllib and the rules of
docs/USAGE.md, and for answers with the rules of RFC 5936 and RFC 1995.
"""
import collections
import contextlib
import inspect
import ipaddress
import os
import pathlib
import re
import socket
import struct
import subprocess
import sys
import threading
import tomllib

import dns.zonefile

BENCH = pathlib.Path(__file__).resolve().parent.parent
DATA = BENCH.parent / "crates/dns_stored_runs/data"
sys.path.insert(0, str(BENCH / "runs"))
import model

APEX, S, J = (b"a",), 2, 8
PLAIN = {"zones": ["check", "zone", "a."], "devices": ["dump", "config", "a."]}
COUNTS = {"snapshot_sectors": 1, "journal_sectors": 8, "keep": 0}
KEYS = ["origin", "file", "device", *COUNTS, "update", "transfer"]


def parts_of(sectors):
    return b"".join(struct.pack(">BH", at, len(cut)) + cut for at, it in enumerate(sectors) if (cut := it[:504].rstrip(b"\0")))


def devices():
    """Devices to begin with: as formatted, after updates, of sector format 1, which has no digests, and after a checkpoint, with `clear` 1 and 0."""
    soa = lambda serial: model.plain_name(APEX) * 2 + struct.pack(">5I", serial, 2, 3, 4, 5)
    sets = [{(APEX, model.SOA, soa(1)): 60, (APEX, model.NS, model.plain_name(APEX)): 60, ((b"b", *APEX), model.A, bytes(4)): 7}]
    zone = model.Zone({"apex": APEX, "s": S, "j": J}, sets[0], model.Plan())
    zone.open()
    made = [parts_of(zone.device.durable)]
    for size in (3, 250):
        others = {it: ttl for it, ttl in sets[-1].items() if it[1] != model.SOA}
        sets.append({**others, (APEX, model.SOA, soa(len(sets) + 1)): 60, ((b"c", *APEX), model.TXT, (bytes([size]) + bytes(size)) * 3): 9})
        zone.store.stage(model.entry_octets(model.change_of(*sets[-2:], APEX)))
        zone.store.flush()
        made.append(parts_of(zone.device.durable))
    (root, part, _, head), entry = zone.device.durable[:4], model.entry_octets(model.change_of(*sets[:2], APEX))
    old = [b"DPR1" + root[4:48] + model.plain_name(APEX), b"DPS1" + part[4:24] + model.snapshot_octets(sets[0]), b""]
    made.append(parts_of([*old, b"DPH1" + head[4:24] + struct.pack(">I", len(entry)) + entry]))
    zone.store.checkpoint(1, 0, lambda version: sets[version])
    made.append(parts_of(zone.device.durable))
    return [*made, made[-1][:51] + b"\0" + made[-1][52:]]


def settings():
    """Configurations in other forms of TOML than those of data/configurations, and with other addresses and names. All are taken."""
    made = []
    prefixes = ["10.128.0.0/9", "255.255.255.255/31", "2001:DB8::/33", "1:2:3:4:5:6:7:8/128", "::ffff/127", "0.0.0.0/0", "::/0"]
    forms = [("'", hex, ", ", "}"), ('"""', oct, ",\n # it\n", ",\n}"), ("'''", bin, "\n", ""), ('"', "{:+_}".format, "\r\n", "")]
    for quote, number, between, end in forms:
        text = lambda it: quote + it + quote
        texts = lambda it: "[" + ", ".join(map(text, it)) + "]"
        name = r"A\065\.x." if "'" in quote else r"\u0041\x41\\.x" if between[-1:] == "\n" and quote != '"' else r"b\\066\\ x."
        own = {"origin": text(name), "file": text("zone"), "device": text("./a//" + "é" * (quote == '"')), "snapshot_sectors": number(4)}
        own |= {"journal_sectors": number(1000), "keep": number(2), "update": texts(prefixes[len(made) :]), "transfer": texts(prefixes[: len(made)])}
        zone = between.join(f"{key} = {it}" for key, it in own.items()) + end
        listen = f"listen = {texts(['[::1]:53', '127.0.0.1:65535'][: len(made) % 2 + 1])} # two\n"
        if "}" in end:
            made.append(f"{listen}zone = [{{{zone}]")
        else:
            other = zone.replace("x.", "y.").replace("./a", "/a")
            made.append(f"{listen}[[zone]]{between}{zone}{between}[[ 'zone' ]]{between}{other}")
    return [it.encode() for it in made]


def answers():
    """Answers to begin with: what is fed to one who holds a version or none, with the number that `fetch` has for its request."""
    made = []
    for it in sorted((DATA / "secondary").iterdir()):
        lines = it.read_bytes().splitlines()
        held = [line[6:] for line in lines if line.startswith(b"holds ")]
        if held not in ([], [b"example/example.zone"]) or not {b"apex example.", b"transport tcp", b"identifier 12"} <= {*lines}:
            continue
        messages = [bytes.fromhex(line.decode()) for line in lines if re.fullmatch(rb"([0-9a-f]{2})+", line)]
        messages = [b"\0\1" + it[2:] if it[:2] == b"\0\x0c" else it for it in messages]
        made.append(bytes([len(held) + len(made) * 2 % 256]) + b"".join(struct.pack(">H", len(it)) + it for it in messages))
    return made


def parts_of_script(script, number):
    """The requests of a script, if they are few, as parts for `stream`, on either connection and some of them cut."""
    requests = [bytes.fromhex(it.decode()) for it in re.findall(rb"(?m)^(?:udp|tcp) \S+ ((?:[0-9a-f]{2}){1,1000})$", script)]
    parts = []
    for octets in requests if len(requests) < 20 else []:
        number += 7
        framed, cut = struct.pack(">H", len(octets)) + octets, number % len(octets)
        for bits, it in ((0x20, framed[:cut]), (0x10, framed[cut:])) if number % 3 == 0 else ((number & 0x1C | 2, octets),):
            parts.append(bytes([bits | number & 1]) + struct.pack(">H", len(it)) + it)
    return b"".join(parts)


def make(folder):
    lines = (DATA / "messages").read_text().splitlines()[::5]
    made = {"messages": [bytes.fromhex(it) for it in lines if len(it) < 800], "devices": devices()}
    labels = lambda last: (b"\x3f" + b"a" * 63) * 3 + bytes([last]) + b"a" * last
    made["messages"] += [bytes.fromhex("000100000001000000000000") + labels(it) + bytes.fromhex("0000010001") for it in (61, 62)]
    made["zones"] = [it.read_bytes() for it in sorted((DATA / "read").iterdir())]
    texts = [*sorted((DATA / "configurations").iterdir()), *sorted((BENCH.parent / "examples").glob("*.toml"))]
    made["configuration"] = [re.sub(rb'(\nfile = )".*"', rb'\1"zone"', it.read_bytes()) for it in texts] + settings()
    made["fetch"] = answers()
    made["stream"] = [parts for it in sorted((DATA / "example").iterdir()) if (parts := parts_of_script(it.read_bytes(), len(it.name)))]
    zone = f'origin = "a."\nfile = "a.zone"\ndevice = "a.dev"\nsnapshot_sectors = {S}\njournal_sectors = {J}\nkeep = 2\n'
    for target, inputs in made.items():
        for part in ("seeds", "others"):
            (folder / target / part).mkdir(parents=True, exist_ok=True)
        (folder / target / "config").write_text(f'listen = "127.0.0.1:5300"\n[[zone]]\n{zone}update = []\ntransfer = []\n')
        for number, octets in enumerate(inputs):
            (folder / target / "seeds" / str(number)).write_bytes(octets)
    words = r"$ORIGIN $TTL IN CH A NS CNAME SOA PTR MX TXT AAAA SRV TYPE257 \\# ( ) @ ; \\065 192.0.2.1 ::1 65535 4294967295 1w *".split()
    tokens = r"""[[zone]] [zone] listen # = , { } [ ] ' ''' \" \"\"\" \\u0061 \\x61 \\e \\\\065 0x1f 1_0 +1 -0 65536 192.0.2.1 [::1]:53 ::/0 ./ //"""
    wire = [r"\x%02x\x00\x01" % it for it in (1, 2, 5, 6, 12, 15, 16, 28, 33, 251, 252, 255)] + [r"\xc0\x0c", r"\x07example\x00", r"\x28", r"\x84"]
    for target in made:
        own = {"configuration": [*KEYS, *tokens.split()], "fetch": wire, "stream": wire}.get(target, words)
        (folder / target / "words").write_text("".join(f'"{it}"\n' for it in own))
    zone = (DATA / "example/example.zone").read_text()
    sizes = f"snapshot_sectors = {len(zone) // 200 + 8}\njournal_sectors = 16\nkeep = 4\n"
    own = f'origin = "example."\nfile = "zone"\ndevice = "dev"\n{sizes}update = ["0.0.0.0/0"]\ntransfer = ["0.0.0.0/0"]\n'
    (folder / "stream" / "zone").write_text(zone)
    (folder / "stream" / "config").write_text(f'listen = "127.0.0.1:5300"\n[[zone]]\n{own}')
    (folder / "fetch" / "held").write_text(zone)
    (folder / "configuration" / "zone").write_text("@ 60 IN SOA . . 1 2 3 4 5\n@ 60 IN NS .\n")


class Records(list):
    """Takes what dnspython reads of a master file, record by record, in the place of a transaction."""
    manager = property(lambda self: self)
    origin_information = lambda self: (self.origin, False, self.origin)
    get_class = lambda self: 1
    check_put_rdataset = _set_origin = lambda self, _: None
    add = lambda self, owner, ttl, data: self.append((owner.canonicalize().to_wire(), int(data.rdtype), ttl, data.to_digestable()))


class Reader(dns.zonefile.Reader):
    """Takes the TTL of the entry before where there is no $TTL (RFC 1035), and not the MINIMUM of the SOA."""
    def _rr_line(self):
        known = self.default_ttl_known
        super()._rr_line()
        self.default_ttl_known = known


# Only the nine types have a form; the data of any other is octets.
form_of = dns.rdata.get_rdata_class
dns.rdata.get_rdata_class = lambda rclass, rtype: form_of(rclass, rtype) if rtype in model.NINE else dns.rdata.GenericRdata


def by_dnspython(octets, origin="a."):
    """The records of a master file. It reads characters and not octets, and so gets all but ASCII escaped, and lines that end with LF."""
    escaped = lambda it: b"\\%03d" % it[0][-1] if it[0][-1] > 127 else it[0]
    text = re.sub(rb"(?s)\\.|[\x80-\xff]", escaped, octets.replace(b"\r\n", b"\n")).decode()
    tokens = dns.tokenizer.Tokenizer(text, "zone")
    records = Records()
    records.origin = dns.name.from_text(origin)
    reader = Reader(tokens, 1, records)
    # It takes the name of an $ORIGIN as absolute.
    tokens.get_name = lambda origin=None, *more: dns.tokenizer.Tokenizer.get_name(tokens, origin or reader.current_origin, *more)
    reader.read()
    return sorted(set(reader.txn))


def by_model(target, octets, folder):
    if target == "messages":
        sections = model.Message(octets).sections
        return [*map(len, sections), sum(it[3] for records in sections for it in records) % 2**32]
    device = model.Device(21, model.Plan())
    device.durable = [bytes(it) for it in zip(*[iter((folder / "device").read_bytes())] * 512)]
    last = model.Store(device, APEX, S, J).open()[1][-1]
    return sorted((model.plain_name(o), t, ttl, d) for (o, t, d), ttl in last.items())


# tomllib reads TOML 1.0. In 1.1 an inline table may have lines, comments and a last comma, and `\e` and `\xHH` are escapes.
toml = tomllib._parser
toml.BASIC_STR_ESCAPE_REPLACEMENTS = {**toml.BASIC_STR_ESCAPE_REPLACEMENTS, "\\e": "\x1b"}
made = inspect.getsource(toml.parse_inline_table).replace("skip_chars(src, pos, TOML_WS)", "skip_comments_and_array_ws(src, pos)")
exec(made.replace("True:\n", "True:\n        if src[pos : pos + 1] == '}':\n            return pos + 1, nested_dict.dict\n"), vars(toml))
made, at = inspect.getsource(toml.parse_basic_str_escape), '    if escape_id == "\\\\u"'
exec(made.replace(at, '    if escape_id == "\\\\x":\n        return parse_hex_char(src, pos, 2)\n' + at), vars(toml))


def address_of(text):
    """An address in text, as (family, octets). An IPv6 address has no dotted numbers at its end, and no zone."""
    if ":" in text and set(text) & {".", "%"} or not text.isascii():
        raise ValueError
    made = ipaddress.ip_address(text)
    return made.version, made.packed


def socket_of(text):
    host, port = re.fullmatch(r"(.*):([1-9][0-9]{0,4})", text, re.S).groups()
    if int(port) > 65535 or (address_of(host.removeprefix("[").removesuffix("]"))[0] == 6) != (host[:1] + host[-1:] == "[]"):
        raise ValueError


def prefix_of(text):
    address, length = re.fullmatch(r"([^/]*)/(0|[1-9][0-9]{0,2})", text, re.S).groups()
    family, octets = address_of(address)
    if int(length) > 8 * len(octets):
        raise ValueError
    return family, octets, int(length)


def name_of(text):
    """The name of a text, under the root (RFC 1035 section 5.1)."""
    labels, octets = [b""], text.encode()
    if text in ("@", "."):
        return ()
    while octets:
        whole, decimal, escaped, bare = re.match(rb"(?s)(\\([0-9]{3})|\\([^0-9])|([^\\]))", octets).groups()
        octets = octets[len(whole) :]
        if bare == b".":
            labels.append(b"")
        else:
            labels[-1] += (bytes([int(decimal)]) if decimal else escaped or bare).lower()
    if len(labels) > 1 and not labels[-1]:
        labels.pop()
    if not all(0 < len(it) < 64 for it in labels) or sum(len(it) + 1 for it in labels) > 254:
        raise ValueError
    return tuple(labels)


def settings_of(octets):
    """What docs/USAGE.md has of a configuration: the settings of its zones, or an error."""
    document = tomllib.loads(octets.decode())
    listen, tables = document.pop("listen"), document.pop("zone")
    listen = [listen] if isinstance(listen, str) else listen
    for it in listen:
        socket_of(it)
    if document or not isinstance(listen, list) or not 1 <= len(listen) <= 8 or not isinstance(tables, list) or not 1 <= len(tables) <= 16:
        raise ValueError
    zones = []
    for it in tables:
        if set(it) != set(KEYS) or not all(type(it[key]) is int and least <= it[key] <= 65536 for key, least in COUNTS.items()):
            raise ValueError
        if not all(isinstance(it[key], str) for key in ("file", "device")) or not all(isinstance(it[key], list) for key in ("update", "transfer")):
            raise ValueError
        it["apex"], it["update"], it["transfer"] = name_of(it["origin"]), [*map(prefix_of, it["update"])], [*map(prefix_of, it["transfer"])]
        it["path"] = it["device"][:1] == "/", [part for part in it["device"].split("/") if part not in ("", ".")]
        if any(it["apex"] == other["apex"] or it["path"] == other["path"] for other in zones):
            raise ValueError
        zones.append(it)
    return zones


def ran_plain(program, folder, *given):
    ran = subprocess.run([program, *given], cwd=folder, capture_output=True)
    return ran.stdout, ran.stderr, ran.returncode


def check_of(zones, folder):
    """What `check` tells of these zones: a word for it, and the line of the fault, or those of the zones. `zone` has two records."""
    shown = lambda path: re.sub(rb"[^ -~]", lambda it: b"\\%03d" % it[0][0], path.encode())
    for it in zones:
        path = os.path.join(folder, it["file"])
        if not os.path.isfile(path):
            return "taken, without a master file", shown(it["file"]) + b": Unreadable\n"
        if not os.path.samefile(path, folder / "zone"):
            return "taken, with another master file", None
        it["s"], it["j"] = it["snapshot_sectors"], it["journal_sectors"]
        it["records"] = {(it["apex"], model.SOA, b"\0\0" + struct.pack(">5I", 1, 2, 3, 4, 5)): 60, (it["apex"], model.NS, b"\0"): 60}
    for it in zones:
        if model.snapshot_sectors(len(model.snapshot_octets(it["records"]))) > it["s"]:
            return "taken, with a zone too large", shown(it["device"]) + b": ZoneTooLarge\n"
    return "taken", b"".join(b"%s ok 2 records serial 1\n" % dns.name.Name([*it["apex"], b""]).to_text().encode() for it in zones)


def script_of(zones):
    """Updates, and transfers of both forms, from addresses at the edges of each prefix."""
    lines, count = ["connect 127.0.0.1"], 0
    for it in zones:
        asked = lambda rtype: model.plain_name(it["apex"]) + struct.pack(">2H", rtype, 1)
        soa = b"\xc0\x0c" + struct.pack(">2HIH", 6, 1, 0, 22) + b"\0\0" + struct.pack(">5I", 1, 0, 0, 0, 0)
        for family, octets, length in [*it["update"], *it["transfer"], (4, b"\x7f\0\0\1", 32), (6, bytes(15) + b"\1", 128)][-20:]:
            for place in {length, length - 1, 8 * len(octets)} - {-1}:
                flipped = int.from_bytes(octets, "big") ^ 1 << 8 * len(octets) >> place + 1
                address = str(ipaddress.ip_address(flipped.to_bytes(len(octets), "big")))
                count += 1
                item = b"\xc0\x0c" + struct.pack(">2HIH", 1, 1, 9, 4) + struct.pack(">I", count)
                lines += [f"udp {address} {(struct.pack('>6H', count, 0x2800, 1, 0, 1, 0) + asked(6) + item).hex()}", "flush", f"connect {address}"]
                for message in (struct.pack(">6H", 1, 0, 1, 0, 0, 0) + asked(252), struct.pack(">6H", 2, 0, 1, 0, 1, 0) + asked(251) + soa):
                    lines += [f"tcp 1 {message.hex()}", *["pump 1"] * 3]
                lines.append("close 1")
    return lines


def configured(octets, folder, program):
    """A word for what was made of a configuration, and what differs, if anything does."""
    ran = subprocess.run(["./harness"], cwd=folder, input=octets, capture_output=True)
    if ran.returncode:
        return "fault", ran.stderr.decode(errors="replace")
    out, err = ran.stdout[: len(ran.stdout) // 2], b"" if ran.stdout else ran.stderr.splitlines(True)[0]
    zones, word, wanted = None, "refused", b"config: BadConfig\n"
    with contextlib.suppress(Exception):
        zones = settings_of(octets)
    if zones:
        word, wanted = check_of(zones, folder)
    if wanted is not None and wanted != out + err:
        return word, f"wanted {wanted}, came {out + err}"
    (folder / "config").write_bytes(octets)
    plain = ran_plain(program, folder, "check", "config", "--config")
    if plain != (out, err, 0 if out else 1):
        return word, f"the plain program prints {plain}"
    if word == "taken" and sum(it["s"] + it["j"] for it in zones) < 5000:
        lines, machine = script_of(zones), model.Machine([(it, it["records"]) for it in zones])
        (folder / "script").write_text("".join(it + "\n" for it in lines))
        wanted = "".join(it + "\n" for line in lines for it in machine.run(line)).encode()
        word, plain = "taken and replayed", ran_plain(program, folder, "replay", "config", "script")
        if plain != (wanted, b"", 0):
            at = len(os.path.commonprefix([wanted, plain[0]]))
            return word, f"replay: wanted {wanted[:at].count(10) + 1}: {wanted[at - 60 :][:200]}, came {plain[0][at - 60 :][:200]} {plain[1:]}"
    return word, None


class Refused(Exception):
    pass


def zone_of(records, apex):
    """A zone of these records, {(owner, type, data): TTL}, or what docs/USAGE.md has against it."""
    owned = collections.Counter(it[0] for it in records)
    kinds = {it[:2] for it in records}
    if sum(it[1] == model.SOA for it in records) != 1 or not {(apex, model.SOA), (apex, model.NS)} <= kinds or len(records) > 65536:
        raise Refused("InvalidZone")
    for owner, kind in kinds:
        if not model.is_under(owner, apex) or kind == model.CNAME and owned[owner] > 1 or kind == model.NS and owner[:1] == (b"*",):
            raise Refused("InvalidZone")
    return records


def heard(stream, held):
    """The zone that an answer leads to one who holds these records, or none (RFC 5936 section 2.2, RFC 1995 section 4), or its fault."""
    apex, first, made, reached, goes = (b"example",), None, None, None, None
    while len(stream) > 1 and len(stream) - 2 >= (length := int.from_bytes(stream[:2], "big")):
        octets, stream = stream[2 : 2 + length], stream[2 + length :]
        try:
            message = model.Message(octets)
        except model.Unreadable:
            raise Refused("BadMessage") from None
        asked = [(apex, 251 if held else 252, 1)]
        if message.bits & 0xFA00 != 0x8000 or message.questions and [it[:3] for it in message.questions] != asked:
            raise Refused("BadMessage")
        if message.id != 1 or message.bits & 15:
            raise Refused(f"Refused({message.bits & 15})" if message.id == 1 else "WrongId")
        is_over = False
        for owner, kind, rclass, ttl, data in message.sections[0]:
            whole, key = (owner, kind, ttl, data), (owner, kind, data)
            is_soa = kind == model.SOA
            if is_over or rclass != 1 or kind in model.NINE and not data or len(data) > 4096 or kind in (0, 41, 65535) or 128 <= kind < 256:
                raise Refused("BadSequence")
            if first is None:
                if not is_soa or owner != apex:
                    raise Refused("BadSequence")
                first = whole
                continue
            if made is None:
                if held and is_soa:
                    made, reached, goes = dict(held), model.soa_of(held, apex), False
                    if model.serial_of(reached) == model.serial_of(first):
                        raise Refused("BadSequence")
                else:
                    made = {(*first[:2], first[3]): first[2]}
            if goes is None:
                is_over = is_soa
                if is_soa and whole != first:
                    raise Refused("BadSequence")
                if made.setdefault(key, ttl) != ttl:
                    raise Refused("InvalidZone")
            elif is_soa and not goes and model.serial_of(reached) == model.serial_of(first):
                is_over = True
                if whole != first:
                    raise Refused("BadSequence")
            elif is_soa and not goes and whole != reached:
                raise Refused("BadSequence")
            elif is_soa and goes and model.serial_of(whole) == model.serial_of(first) and whole != first:
                raise Refused("BadSequence")
            else:
                if is_soa:
                    goes, reached = not goes, whole
                if made.pop(key, None) != (ttl if goes else None):
                    raise Refused("RemovesAbsent" if goes else "AddsPresent")
                if not goes:
                    made[key] = ttl
        if is_over:
            return zone_of(made, apex)
        if first and made is None and held and not model.greater(model.serial_of(first), model.serial_of(model.soa_of(held, apex))):
            return held
    raise Refused("Closed")


def taken_in(octets, folder, program):
    """A word for what `fetch` made of an answer, and what differs, if anything does."""
    ran = subprocess.run(["./harness"], cwd=folder, input=octets, capture_output=True)
    if ran.returncode or not octets or len(octets) > 65536:
        return ("fault", ran.stderr.decode(errors="replace")) if ran.returncode else ("empty", None)
    printed = ran.stdout.rpartition(b"ok ")[0]
    out, err = printed[: len(printed) // 2], b"" if printed else ran.stderr.splitlines(True)[0]
    records = by_dnspython((folder / "held").read_bytes(), "example.") if octets[0] & 1 else []
    held = {(model.read_name(o, 0)[0], t, d): ttl for o, t, ttl, d in records}
    try:
        wanted = sorted((model.plain_name(o), t, ttl, d) for (o, t, d), ttl in heard(octets[1:], held).items())
    except Refused as it:
        wanted = str(it)
    came = by_dnspython(out, "example.") if out else err.decode().split()[1]
    word = "taken in" if out else "refused as " + came.split("(")[0]
    if wanted != came:
        return word, f"wanted {wanted}, came {came}"
    with socket.create_server(("127.0.0.1", 0)) as server:
        at = "127.0.0.1:%d" % server.getsockname()[1]
        answering = threading.Thread(target=answer, args=(server, octets[1:]))
        answering.start()
        plain = ran_plain(program, folder, "fetch", at, "example.", *["--since", "held"][: 2 * (octets[0] & 1)])
        answering.join()
    if plain != (out, err.replace(b"127.0.0.1:53", at.encode()), 0 if out else 3 if came == "Closed" else 1):
        return word, f"the plain program prints {plain}"
    return word, None


def answer(server, octets):
    """Answers one request so, and ends."""
    with server.accept()[0] as stream, contextlib.suppress(OSError):
        stream.recv(1024)
        stream.sendall(octets)
        stream.shutdown(socket.SHUT_WR)
        stream.recv(1024)


def streamed(octets, folder, program):
    """A word for what was made of the parts of two streams, and what differs, if anything does: the model's replies to their messages."""
    ran = subprocess.run(["./harness"], cwd=folder, input=octets, capture_output=True)
    if ran.returncode or not ran.stdout:
        return ("fault", ran.stderr.decode(errors="replace")) if ran.returncode else ("too long", None)
    came = ran.stdout.split(b"turns zone play")[0].removeprefix(b"replay . config script\n").removesuffix(b"status 0\n")
    plain = ran_plain(program, folder, "replay", "config", "script")
    if plain != (came, b"", 0):
        return "replayed", f"the plain program prints {plain}"
    records = {(model.read_name(o, 0)[0], t, d): ttl for o, t, ttl, d in by_dnspython((folder / "zone").read_bytes(), "example.")}
    settings = tomllib.loads((folder / "config").read_text())["zone"][0]
    sizes = {"s": settings["snapshot_sectors"], "j": settings["journal_sectors"], "keep": settings["keep"]}
    zone = {"apex": (b"example",), "origin": "example.", **sizes, "update": [(4, bytes(4), 0)], "transfer": [(4, bytes(4), 0)]}
    machine = model.Machine([(zone, records)])
    wanted = "".join(it + "\n" for line in (folder / "script").read_text().splitlines() for it in machine.run(line)).encode()
    at = len(os.path.commonprefix([wanted, came]))
    word = f"replied to, {min(wanted.count(10) - 2, 3)} times or more" if wanted.count(10) > 2 else "not replied to"
    return word, None if wanted == came else f"wanted {wanted[max(at - 60, 0) :][:200]}, came {came[max(at - 60, 0) :][:200]}"


def verdict(target, octets, folder, program):
    """A word for what was made of an input, and what differs, if anything does."""
    if own := {"configuration": configured, "fetch": taken_in, "stream": streamed}.get(target):
        return own(octets, folder, program)
    ran = subprocess.run(["./harness"], cwd=folder, input=octets, capture_output=True)
    out, err = ran.stdout, ran.stderr
    if ran.returncode or b"migrated" in out:
        return ("fault", err.decode(errors="replace")) if ran.returncode else ("migrated", None)
    if target == "messages":
        first, *counts = out.split(b"\n")[1].decode().split(" ")
        is_read, came = bool(counts), [int(it) for it in counts] or None
    elif target == "zones":
        head, is_read, printed = out.removeprefix(b"check zone a.\n").partition(b"print zone a. a.\n")
        out, _, err = head.rpartition(b"status")[0].partition(b"told:\n")
        came = by_dnspython(printed.split(b"\nstatus 0\n")[0] + b"\n") if is_read else None
    else:
        printed, is_read, _ = out.rpartition(b"ok ")
        out, err = printed[: len(printed) // 2], err[: err.find(b"\n") + 1]
        came = by_dnspython(out) if is_read else None
    wanted = None
    with contextlib.suppress(Exception):
        wanted = by_dnspython(octets) if target == "zones" else by_model(target, octets, folder)
    word = "read" if is_read else "refused as " + (first if target == "messages" else re.split(r"[ (\n]", err.decode())[1])
    if target == "zones":
        word += ", and by dnspython " + ("refused" if wanted is None else "read")
    if wanted != came and (target == "messages" or is_read and (target == "devices" or wanted is not None)):
        return word, f"wanted {wanted}, came {came}"
    if target == "messages":
        return word, None
    (folder / ("zone" if target == "zones" else "a.dev")).write_bytes(octets if target == "zones" else (folder / "device").read_bytes())
    plain = subprocess.run([program, *PLAIN[target]], cwd=folder, capture_output=True)
    agrees = (plain.stdout, plain.stderr, plain.returncode) == (out, err, 0 if is_read else 1)
    return word, None if agrees else f"the plain program prints {plain}"


def compare(folder, target, program):
    counts, differences = collections.Counter(), []
    for path in [*sorted((folder / target).glob("kept/*/[qch]*/id*")), *sorted((folder / target / "others").iterdir())]:
        word, difference = verdict(target, path.read_bytes(), folder / target, program)
        counts[word] += 1
        differences += [f"DIFFERS {path}: {difference[:2000]}"] if difference else []
    print(*[f"{count:7} {word}" for word, count in counts.most_common()], *differences, sep="\n")
    print(f"{target}: {sum(counts.values())} inputs compared, {len(differences)} differ")
    return bool(differences)


if __name__ == "__main__":
    sys.exit(make(pathlib.Path(sys.argv[2])) if sys.argv[1] == "make" else compare(pathlib.Path(sys.argv[2]), *sys.argv[3:]))
