"""Hash and F through the C interface, wherever message and key stand: at every offset in a block, and against a page that can be
neither read nor written, after them or before them [02:W5.1 W5.3 W5.4]. Expected values come from Python's hashlib and hmac, never
from our own code. The bytes near each argument are random, from a seed that is printed, so that a read outside an argument changes
the digest; against a page it stops the test.

  hashing.py LIBRARY [--seed N]     LIBRARY is the archive linked as a shared object (tests/run makes it)
  hashing.py --records [--seed N]   writes what tests/hashing.c reads
"""
import argparse
import collections
import ctypes
import faulthandler
import hashlib
import hmac
import mmap
import pathlib
import random
import sys
import time

import archive

LONGEST = 65536
LENGTHS = [*range(322), 65535, 65536, 65537]
KEYS = [0, 1, 31, 32, 63, 64, 65, 100, 128, 65536, 65537]
MESSAGES = [0, 8, 9, 28, *range(54, 58), *range(62, 67), 119, 120, 127, 128, 129, 65536, 65537]
# What has to have been compared: 64 offsets and both pages, for 325 lengths, and for 11 keys with 20 messages.
WANTED = {"hashes amid other bytes": 64 * 324, "hashes at a page's edge": 2 * 324, "hashes refused": 66 * 1,
          "F amid other bytes": 64 * 190, "F at a page's edge": 2 * 190, "F refused": 66 * 30}
# Of the records of tests/hashing.c, every key with every message.
EXACT = [0, 1, 55, 56, 63, 64, 65, 119, 120, 128, 1000]


class Room:
    """Where an argument stands: pages between two that can be neither read nor written. A call leaves the bytes near it."""

    SIZE, AMID, NEAR = 1 << 17, 1 << 13, 256

    def __init__(self, generator):
        self.generator = generator
        self.map = mmap.mmap(-1, self.SIZE + 2 * mmap.PAGESIZE)
        first = ctypes.addressof(ctypes.c_char.from_buffer(self.map))
        self.start = first + mmap.PAGESIZE
        self.bytes = memoryview(self.map)[mmap.PAGESIZE:mmap.PAGESIZE + self.SIZE]
        libc = ctypes.CDLL(None)
        libc.mprotect.argtypes = [ctypes.c_void_p, ctypes.c_size_t, ctypes.c_int]
        for page in (first, self.start + self.SIZE):
            assert libc.mprotect(page, mmap.PAGESIZE, 0) == 0

    def put(self, content, place):
        """The address: at the first byte of the pages, up to their last, or at an offset from a multiple of 64 amid them."""
        at = {"first": 0, "last": self.SIZE - len(content)}.get(place)
        at = self.AMID + place if at is None else at
        self.before = self.generator.randbytes(min(at, self.NEAR))
        self.after = self.generator.randbytes(min(self.SIZE - at - len(content), self.NEAR))
        self.low, self.high = at - len(self.before), at + len(content) + len(self.after)
        self.bytes[self.low:self.high] = self.before + content + self.after
        return self.start + at

    def holds(self, what, content):
        """The argument is this, and the bytes near it are as they were."""
        held, at = bytes(self.bytes[self.low:self.high]), len(self.before)
        archive.same(what, held[at:at + len(content)], content)
        archive.same(what + ", the bytes near", held[:at] + held[at + len(content):], self.before + self.after)


class Hashing:
    def __init__(self, library, seed):
        self.r, self.tried = random.Random(seed), collections.Counter()
        self.rooms, self.digest = [Room(self.r), Room(self.r)], Room(self.r)
        self.calls = {"hashes": library.mazhkuri_sha256, "F": library.mazhkuri_hmac}

    def call(self, name, arguments, places, wanted):
        """The call on arguments at these places writes what is wanted, or is refused by 9 and leaves what it was lent."""
        lent, raw = self.r.randbytes(32), []
        for room, content, place in zip(self.rooms, arguments, places):
            raw += [room.put(content, place), len(content)]
        edge = places[0] in ("first", "last")
        told = self.calls[name](*raw, self.digest.put(lent, places[0] if edge else self.r.randrange(64)))
        what = "%s of %s bytes at %s" % (name, [len(a) for a in arguments], places)
        refused = max(map(len, arguments)) > LONGEST
        archive.same(what, told, -9 if refused else 0)
        self.digest.holds(what, lent if refused else wanted)
        for room, content in zip(self.rooms, arguments):
            room.holds(what + ": what it reads", content)
        self.tried["%s %s" % (name, "refused" if refused else "at a page's edge" if edge else "amid other bytes")] += 1

    def hashes(self):
        for n in LENGTHS:
            for place in (*range(64), "first", "last"):
                message = self.r.randbytes(n)
                self.call("hashes", [message], [place], hashlib.sha256(message).digest())

    def macs(self):
        """The key stands at every offset too."""
        for k in KEYS:
            for n in MESSAGES:
                for place in (*range(64), "first", "last"):
                    key, message = self.r.randbytes(k), self.r.randbytes(n)
                    of_key = place if isinstance(place, str) else (5 * place + 3) % 64
                    self.call("F", [key, message], [of_key, place], hmac.new(key, message, "sha256").digest())


def write_records(seed):
    """The number of records; then for each its key and its message, each after its length, the digest and the tag."""
    r, records = random.Random(seed), []
    for k in EXACT:
        for n in EXACT:
            key, message = r.randbytes(k), r.randbytes(n)
            records.append(b"".join((k.to_bytes(4, "big"), key, n.to_bytes(4, "big"), message, hashlib.sha256(message).digest(),
                                     hmac.new(key, message, "sha256").digest())))
    sys.stdout.buffer.write(len(records).to_bytes(4, "big") + b"".join(records))


def main():
    options = argparse.ArgumentParser(description=__doc__.split("\n")[0])
    options.add_argument("library", nargs="?")
    options.add_argument("--records", action="store_true")
    options.add_argument("--seed", type=int, default=random.SystemRandom().randrange(2**32))
    given = options.parse_args()
    print("hashing.py: seed %d" % given.seed, file=sys.stderr, flush=True)
    if given.records:
        write_records(given.seed)
        return 0
    faulthandler.enable()
    began, tests = time.time(), Hashing(archive.Library(pathlib.Path(given.library).resolve()).library, given.seed)
    try:
        tests.hashes()
        tests.macs()
    except archive.Difference as difference:
        print("DIFFERENCE in %s" % difference)
        return 1
    if tests.tried != WANTED:
        print("not what was to be compared: %s, wanted %s" % (dict(tests.tried), WANTED))
        return 1
    told = ", ".join("%s %d" % pair for pair in WANTED.items())
    print("hash and F alike at every place: %s; %d calls, %.1f s" % (told, sum(WANTED.values()), time.time() - began))
    return 0


if __name__ == "__main__":
    sys.exit(main())
