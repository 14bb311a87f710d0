"""The server as a worker feeds it, and its store, which a worker may cut back."""
import fcntl
import os
import selectors
import stat
import subprocess
import sys
import time

HERE = os.path.dirname(os.path.realpath(__file__))
sys.path.insert(0, os.path.join(HERE, "..", "..", "tools"))
import partitions
import stores

BLOCK = 1 << 18


class Ended(Exception):
    """The server has ended; its status."""


class Server:
    """The server over a store: what is said to it, and what it answers."""

    def __init__(self, program, store):
        self.child = subprocess.Popen([program, store], stdin=subprocess.PIPE, stdout=subprocess.PIPE, bufsize=0)
        for pipe in self.child.stdin, self.child.stdout:
            os.set_blocking(pipe.fileno(), False)
        self.ways = selectors.DefaultSelector()
        self.ways.register(self.child.stdout, selectors.EVENT_READ)

    def ask(self, said, count):
        """Says units or questions, of which there are so many, and gives the bytes of their answers."""
        pieces, rest, left, ended = [], b"", memoryview(said), 0
        if count:
            self.ways.register(self.child.stdin, selectors.EVENT_WRITE)
        while ended < count:
            for key, _ in self.ways.select():
                if key.fileobj is self.child.stdin:
                    left = self.say(left)
                else:
                    piece = rest + self.hear()
                    end = piece.rfind(b"\n") + 1
                    rest = piece[end:]
                    pieces.append(piece[:end])
                    ended += partitions.ends_in(pieces[-1])
        return b"".join(pieces)

    def say(self, left):
        """Writes what goes, and gives what is left; once all is written nothing more is."""
        try:
            left = left[os.write(self.child.stdin.fileno(), left[:BLOCK]):]
        except BrokenPipeError:
            raise Ended(self.child.wait()) from None
        if not left:
            self.ways.unregister(self.child.stdin)
        return left

    def hear(self):
        piece = os.read(self.child.stdout.fileno(), BLOCK)
        if not piece:
            raise Ended(self.child.wait())
        return piece

    def last(self):
        """The bytes of the last unit that the store holds, where there is one."""
        return partitions.told_last(self.ask(b"? last\n", 1))

    def end(self):
        """Lets it end, and gives its status."""
        self.child.stdin.close()
        status = self.child.wait()
        self.child.stdout.close()
        return status


def wait_for_lock(path, seconds):
    """Waits until nobody holds the store, at most so long: the server of a worker that was killed may be about to end."""
    until = time.monotonic() + seconds
    while os.path.exists(path) and time.monotonic() < until:
        with open(path, "rb") as store:
            try:
                fcntl.flock(store, fcntl.LOCK_EX | fcntl.LOCK_NB)
                return
            except BlockingIOError:
                time.sleep(0.05)


def record(payload):
    return b"\1" + len(payload).to_bytes(4, "big") + payload


def cut_back(path, place):
    """Leaves of a store the units in front of a place in the log: a copy that ends there takes its place, whole or not at all."""
    path = os.path.realpath(path)
    copied = path + ".cut"
    with open(path, "rb") as store, open(copied, "wb") as copy:
        fcntl.flock(store, fcntl.LOCK_EX | fcntl.LOCK_NB)
        os.fchmod(copy.fileno(), stat.S_IMODE(os.fstat(store.fileno()).st_mode))
        copy.write(stores.MARK)
        for number, payload in enumerate(stores.payloads(store)):
            if number and partitions.place_in(payload) >= place:
                break
            copy.write(record(payload))
        copy.write(b"\0")
        copy.flush()
        os.fsync(copy.fileno())
        os.replace(copied, path)
    folder = os.open(os.path.dirname(path), os.O_RDONLY)
    os.fsync(folder)
    os.close(folder)
