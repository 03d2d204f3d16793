#!/usr/bin/env python3
"""Has a command take in the zone `big.` by TCP on 127.0.0.1, with one record a message, as BIND sends it by `transfer-format one-answer;`:
the question in the first message alone, names in full, and the SOA first and last. The words: how many records; `order`, in which they go
in the order of the zone, or `shuffled`, in which its hosts go in an order that is the same on each run; and the command, in which PLACE
stands for the address and the port. The command's output goes to the standard output. Prints on standard error the seconds from the start
of the command to its end, and ends with its status.
"""
import pathlib
import random
import socket
import struct
import subprocess
import sys
import threading
import time

sys.path.append(str(pathlib.Path(__file__).resolve().parent / "interop"))
from peers import A, AXFR, IN, SOA, exactly, framed, name

NS = 2
ZONE = name("big.")


def message(owner, kind, data, question=b""):
    """A message with its length, whose ID is to be set."""
    record = owner + struct.pack("!2HIH", kind, IN, 3600, len(data)) + data
    return framed(struct.pack("!6H", 0, 0x8400, 1 if question else 0, 1, 0, 0) + question + record)


def answer(records, is_shuffled):
    """The messages before those of the hosts, those of the hosts, which are all of one length, and that length."""
    soa = name("ns.big.") + name("host.big.") + struct.pack("!5I", 1, 7200, 900, 1209600, 300)
    first = message(ZONE, SOA, soa, ZONE + struct.pack("!2H", AXFR, IN))
    head = [first, message(ZONE, NS, name("a.big.")), message(name("a.big."), A, bytes([192, 0, 2, 1]))]
    hosts = [message(name(f"h{it:05}.big."), A, struct.pack("!I", 0x0A000000 + it)) for it in range(len(head), records)]
    if is_shuffled:
        random.Random(1).shuffle(hosts)
    return head, bytearray(b"".join(hosts)), len(hosts[0]), message(ZONE, SOA, soa)


def serve(listener, head, hosts, length, last):
    """Answers one request."""
    stream, _ = listener.accept()
    with stream:
        request = exactly(stream, struct.unpack("!H", exactly(stream, 2))[0])
        for at in (0, 1):
            hosts[2 + at :: length] = bytes([request[at]]) * (len(hosts) // length)
        for piece in (*head, hosts, last):
            octets = piece if piece is hosts else piece[:2] + request[:2] + piece[4:]
            stream.sendall(octets)
        stream.shutdown(socket.SHUT_WR)
        stream.recv(1)


def main(records, order, *command):
    prepared = answer(int(records), order == "shuffled")
    with socket.create_server(("127.0.0.1", 0)) as listener:
        place = f"127.0.0.1:{listener.getsockname()[1]}"
        threading.Thread(target=serve, args=(listener, *prepared), daemon=True).start()
        begun = time.monotonic()
        status = subprocess.run([place if it == "PLACE" else it for it in command]).returncode
        print(f"{time.monotonic() - begun:.3f}", file=sys.stderr)
    return status


sys.exit(main(*sys.argv[1:]))
