"""A disk that keeps each write and each flush in order, and its images as power failures leave them. `powercut` uses it."""
import contextlib
import ctypes
import errno
import mmap
import os
import random
import signal
import struct
import subprocess
import tempfile

SIZE = 512 << 20
# Requests of linux/fuse.h, those to which nothing is answered, and those that are answered without octets.
LOOKUP, GETATTR, OPEN, READ, WRITE, FSYNC, INIT, SILENT, EMPTY = 1, 3, 14, 15, 16, 20, 26, (2, 36, 42), (18, 20, 25, 38)
NEW_NAMESPACE, NOSUID_NODEV, PRIVATE = 0x20000, 6, 0x44000
libc = ctypes.CDLL(None, use_errno=True)


class Refused(Exception):
    """A file system is not mounted."""


def call(*words):
    """What a command of the system prints; an exception where it fails."""
    return subprocess.run(words, check=True, capture_output=True, text=True).stdout.strip()


def mount(source, place, kind, flags, words):
    if libc.mount(source, place, kind, flags, words):
        raise OSError(ctypes.get_errno(), f"{place.decode()} is not mounted")


@contextlib.contextmanager
def room_of_its_own():
    """A folder in memory. It and all that is mounted later is seen by this process and its children alone, and is gone with them."""
    if libc.unshare(NEW_NAMESPACE):
        raise OSError(ctypes.get_errno(), "there is no namespace of mounts")
    mount(None, b"/", None, PRIVATE, None)
    room = tempfile.mkdtemp(prefix="powercut-")
    mount(b"tmpfs", room.encode(), b"tmpfs", 0, b"size=4g")
    try:
        yield room
    finally:
        call("umount", room)
        os.rmdir(room)


@contextlib.contextmanager
def on(kind, path, top, *options, make=()):
    """Mounts a file with a file system, which is made first if that is asked for, by a loop device with these options."""
    device = call("losetup", "--find", "--show", *options, path)
    try:
        call(*make, device) if make else None
        # Blocks that are let go are not discarded, so that each change is a write.
        words = ["mount", "-t", kind, "-o", "nodiscard" if kind == "btrfs" else "rw", device, top]
        is_refused = subprocess.run(words, capture_output=True).returncode
    finally:
        call("losetup", "--detach", device)  # the system does so as soon as nothing has it open
    if is_refused:
        raise Refused
    try:
        yield
    finally:
        call("umount", top)


class Disk:
    """A file `disk` that a process of its own serves, with a log of its writes and flushes in the order in which they came, and `count[0]`
    of them so far. That process stays outside of `room_of_its_own`, which is made later, so that it answers until all there is unmounted,
    however this one ends."""

    def __init__(self):
        self.device, self.log, (ready, self.ready) = os.open("/dev/fuse", os.O_RDWR), os.memfd_create("log"), os.pipe()
        self.count = memoryview(mmap.mmap(-1, 4096)).cast("Q")  # of both processes, and read at once
        self.process = os.fork()
        if self.process == 0:
            try:
                os.close(self.ready)
                for it in (signal.SIGINT, signal.SIGTERM):
                    signal.signal(it, signal.SIG_IGN)
                self.serve() if os.read(ready, 1) else None
            finally:
                os._exit(0)

    @contextlib.contextmanager
    def mounted(self, folder):
        os.mkdir(folder)
        words = f"fd={self.device},rootmode=40000,user_id=0,group_id=0"
        mount(b"powercut", folder.encode(), b"fuse", NOSUID_NODEV, words.encode())
        os.close(self.device)
        os.write(self.ready, b"1")
        try:
            yield f"{folder}/disk"
        finally:
            call("umount", folder)
            os.waitpid(self.process, 0)

    def serve(self):
        """Answers until the folder is unmounted."""
        octets, buffer = mmap.mmap(-1, SIZE), memoryview(bytearray(2 << 20))
        while True:
            try:
                length = os.readv(self.device, [buffer])
                asked, number, node = struct.unpack_from("<4xIQQ", buffer)
                answer = self.answer(asked, node, bytes(buffer[40:length]), octets)
                error, answer = (-answer, b"") if isinstance(answer, int) else (0, answer)
                if asked not in SILENT:
                    os.writev(self.device, [struct.pack("<IiQ", 16 + len(answer), error, number), answer])
            except OSError as error:
                if error.errno == errno.ENODEV:
                    return

    def answer(self, asked, node, body, octets):
        """The answer to a request, or the number of an error. The file is opened so that each write comes here at once."""
        mode, size = (0o40755, 0) if node == 1 and asked != LOOKUP else (0o100600, SIZE)
        attributes = struct.pack("<6Q10I", 2, size, size // 512, 0, 0, 0, 0, 0, 0, mode, 1, 0, 0, 0, 4096, 0)
        offset, length = struct.unpack_from("<8xQI", body) if asked in (READ, WRITE) else (-1, 0)
        if asked in (WRITE, FSYNC):
            octets[max(offset, 0) : max(offset, 0) + length] = body[40 : 40 + length]
            os.write(self.log, struct.pack("<qQ", offset, length) + body[40 : 40 + length])
            self.count[0] += 1
        answers = {
            INIT: struct.pack("<4I2H2I2H8I", 7, 31, 1 << 17, 1 | 1 << 5 | 1 << 22, 64, 48, 1 << 20, 1, 256, *[0] * 9),
            LOOKUP: struct.pack("<5Q", 2, 0, 3600, 3600, 0) + attributes if body == b"disk\0" else errno.ENOENT,
            GETATTR: struct.pack("<2Q", 3600, 0) + attributes,
            OPEN: struct.pack("<2Q", 0, 1),
            READ: octets[offset : offset + length] if asked == READ else b"",
            WRITE: struct.pack("<2I", length, 0),
        }
        return answers.get(asked, b"" if asked in EMPTY else errno.ENOSYS)


class Images:
    """The images of a disk, made of its log at moments that never fall. `done` has a write as its offset, its octets' place in the log and
    their number, and none for a flush."""

    def __init__(self, disk, room):
        self.octets, self.done, self.path, self.synced, at = mmap.mmap(disk.log, 0), [], f"{room}/synced", 0, 0
        while at < len(self.octets):
            offset, length = struct.unpack_from("<qQ", self.octets, at)
            self.done.append((offset, at + 16, length) if offset >= 0 else None)
            at += 16 + length
        with open(self.path, "wb") as file:
            file.truncate(SIZE)

    def rewritten(self, offset):
        """The moments after each write at an offset that changes more than its first 512 octets."""
        writes = [(number, self.octets[it[1] + 512 : it[1] + it[2]]) for number, it in enumerate(self.done, 1) if it and it[0] == offset]
        return [number for (_, before), (number, octets) in zip(writes, writes[1:]) if octets != before]

    def write(self, file, offset, at, length):
        os.pwrite(file.fileno(), self.octets[at : at + length], offset)

    def make(self, moment, path, superblock=None):
        """Makes the image at a moment, and gives how many writes were pending. One of a superblock, by its offset, is not torn."""
        flushed = max(it for it in range(moment) if self.done[it] is None)
        with open(self.path, "r+b") as file:
            for it in filter(None, self.done[self.synced : flushed]):
                self.write(file, *it)
        self.synced, pending = max(self.synced, flushed), [it for it in self.done[flushed:moment] if it]
        call("cp", "--sparse=always", self.path, path)
        share, is_whole = random.choice((0, 0.1, 0.5, 0.9, 1)), random.random() < 0.4
        with open(path, "r+b") as file:
            for offset, at, length in random.choice((pending, pending, pending, pending[1:], pending[:-1], pending[-1:])):
                step = length if is_whole or offset == superblock else 512
                for piece in range(0, length, step):
                    if random.random() < share:
                        self.write(file, offset + piece, at + piece, min(step, length - piece))
        return len(pending)
