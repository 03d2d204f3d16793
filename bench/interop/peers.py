"""What the programs of this folder share: messages of DNS, and a server in a room of its own."""
import os
import pathlib
import shutil
import signal
import socket
import struct
import subprocess
import tempfile
import time

ROOT = pathlib.Path(__file__).resolve().parent.parent.parent
PROGRAM = os.environ.get("DNSPRIM", str(ROOT / "dnsprim"))
PORT = int(os.environ.get("PORT", "5300"))
PLACE = ("127.0.0.1", PORT)

A, SOA, AXFR, ANY_CLASS, IN = 1, 6, 252, 255, 1
NOERROR, SERVFAIL = 0, 2


def name(text):
    """The octets of a name that ends with a dot."""
    labels = [label for label in text.split(".") if label]
    return b"".join(bytes([len(label)]) + label.encode() for label in labels) + b"\0"


def query(number, owner, kind=A):
    """A query of one question."""
    return struct.pack("!6H", number, 0, 1, 0, 0, 0) + name(owner) + struct.pack("!2H", kind, IN)


def address(number):
    """The data of an A record, by a number."""
    return struct.pack("!I", 0x0A000000 + number)


def update(number, zone, owner, data):
    """An update after which the name has this address and no other."""
    head = struct.pack("!6H", number, 0x2800, 1, 0, 2, 0) + name(zone) + struct.pack("!2H", SOA, IN)
    delete = name(owner) + struct.pack("!2HIH", A, ANY_CLASS, 0, 0)
    add = name(owner) + struct.pack("!2HIH", A, IN, 300, len(data)) + data
    return head + delete + add


def framed(message):
    """A message with its length before it (RFC 1035 section 4.2.2)."""
    return struct.pack("!H", len(message)) + message


def code(reply):
    """The response code of a reply."""
    return reply[3] & 15


def serial(reply):
    """The serial of a reply whose one answer is an SOA."""
    return struct.unpack("!5I", reply[-20:])[0] if struct.unpack("!H", reply[6:8])[0] else None


def ask(message, patience=5.0):
    """The reply by UDP, and the seconds that it took. It is asked once; none is an exception."""
    with socket.socket(socket.AF_INET, socket.SOCK_DGRAM) as sock:
        sock.settimeout(patience)
        sock.connect(PLACE)
        begun = time.monotonic()
        sock.send(message)
        while True:
            reply = sock.recv(65535)
            if reply[:2] == message[:2]:
                return reply, time.monotonic() - begun


def connect(patience=5.0, source="127.0.0.1"):
    """A connection by TCP, from an address of this machine."""
    sock = socket.create_connection(PLACE, patience, (source, 0))
    sock.setsockopt(socket.IPPROTO_TCP, socket.TCP_NODELAY, 1)
    return sock


def exactly(sock, count):
    """So many octets of a connection; an exception where it ends before."""
    octets = b""
    while len(octets) < count:
        piece = sock.recv(count - len(octets))
        if not piece:
            raise EOFError("the connection has ended")
        octets += piece
    return octets


def exchange(sock, message):
    """The reply on a connection."""
    sock.sendall(framed(message))
    return exactly(sock, struct.unpack("!H", exactly(sock, 2))[0])


def write_zone(path, hosts):
    """A zone with an address for each of so many hosts."""
    with open(path, "w") as file:
        file.write("$TTL 300\n@ IN SOA ns hostmaster 1 7200 900 1209600 300\n@ IN NS ns\nns IN A 192.0.2.1\n")
        for host in range(hosts):
            file.write(f"h{host} IN A 10.{host >> 16}.{host >> 8 & 255}.{host & 255}\n")


class Server:
    """A server of one zone, `example.`, in a temporary folder."""

    def __init__(self, hosts, journal, keep, allowed="127.0.0.0/8"):
        self.room = tempfile.mkdtemp(prefix="dnsprim-")
        self.process = None
        write_zone(f"{self.room}/example.zone", hosts)
        with open(f"{self.room}/dnsprim.toml", "w") as file:
            file.write(
                f'listen = "127.0.0.1:{PORT}"\n[[zone]]\norigin = "example."\nfile = "example.zone"\ndevice = "example.dev"\n'
                f"snapshot_sectors = 16384\njournal_sectors = {journal}\nkeep = {keep}\n"
                f'update = ["{allowed}"]\ntransfer = ["{allowed}"]\n'
            )
        self.run("init")

    def run(self, word, *words):
        """What the program prints in the room."""
        command = [PROGRAM, word, "dnsprim.toml", *words]
        return subprocess.run(command, cwd=self.room, check=True, stdout=subprocess.PIPE, text=True).stdout

    def start(self):
        """Starts it, and gives the seconds until the first query is answered."""
        begun = time.monotonic()
        with open(f"{self.room}/log", "wb") as log:
            command = [PROGRAM, "serve", "dnsprim.toml", "--turns", "unlimited"]
            self.process = subprocess.Popen(command, cwd=self.room, stderr=log)
        while self.process.poll() is None:
            try:
                ask(query(1, "example.", SOA), 0.2)
                return time.monotonic() - begun
            except OSError:
                time.sleep(0.002)
        raise SystemExit(pathlib.Path(f"{self.room}/log").read_text())

    def version(self):
        """The number of the version that was shown when it started."""
        line = pathlib.Path(f"{self.room}/log").read_text().splitlines()[0]
        return int(line.split(" version ")[1].split()[0])

    def lines(self):
        """How many lines of the log there are of each kind."""
        counts = {}
        for line in pathlib.Path(f"{self.room}/log").read_text().splitlines():
            words = " ".join(word for word in line.split() if word.isalpha())
            counts[words] = counts.get(words, 0) + 1
        return counts

    def memory(self):
        """The kilobytes of memory that are in use."""
        lines = pathlib.Path(f"/proc/{self.process.pid}/status").read_text().splitlines()
        return next(int(line.split()[1]) for line in lines if line.startswith("VmRSS"))

    def kill(self):
        """Kills it at once."""
        if self.process:
            self.process.send_signal(signal.SIGKILL)
            self.process.wait()
            self.process = None

    def end(self):
        """Kills it, and removes its room."""
        self.kill()
        shutil.rmtree(self.room)


def versions():
    """Lines that name the programs."""
    kit = subprocess.run(["rt", "version"], stdout=subprocess.PIPE, text=True).stdout.strip().replace("\n", " ")
    knot = subprocess.run(["knotd", "-V"], stdout=subprocess.PIPE, text=True).stdout.strip()
    return f"{kit}; {knot}; Linux {os.uname().release}"
