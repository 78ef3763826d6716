"""The static library against the model, through the C interface: hash, F and E, on published vectors too;
random lists of calls against the model store and the model ledger; ids with thousands of entries against the
ledger; calls on hostile stores against the model store; rows in any place; counts with the rows looked at; tests and joint
finds of 1 to 8 parts; checks of stores with every kind of fault; stores of version 1. Expected values come from
tests/model, Python's hashlib and hmac, OpenSSL's libcrypto and published files, never from our own code. Exit status 1 at the
first difference.

  archive.py LIBRARY [--lists N] [--hostile N] [--seed N] [--long] [--half 1|2]

LIBRARY is the archive linked as a shared object (tests/run makes it). --long runs ten times as many. The parts are two halves of
about the same time, of which --half tries one: hostile stores are the second.
A table's rows fix its bytes [02:W2.5], so whole stores are compared byte for byte. Every count is made by both of its
functions: the one that tells rows gives the same number, and the model's rows, or leaves what it was lent [02:W3.8].
Every check gives the sum of its numbers and writes them, or leaves what it was lent [check:14].
The model hashes by hashlib, so that calls promise the same bytes whichever way ours reads a message [02:W5.5].
"""
import argparse
import collections
import ctypes
import functools
import hashlib
import hmac
import mmap
import pathlib
import random
import sys
import time

HERE = pathlib.Path(__file__).resolve().parent
sys.path.insert(0, str(HERE / "model"))

import calls  # noqa: E402
import compare  # noqa: E402
import examples  # noqa: E402
import faults  # noqa: E402
import form  # noqa: E402
import hostile  # noqa: E402
import looked  # noqa: E402
import placing  # noqa: E402
import scheme  # noqa: E402
import vectors  # noqa: E402
import version1  # noqa: E402
from calls import Done, Refused, nonce_bytes  # noqa: E402
from gate import left_out  # noqa: E402
from hostile import FIELDS, KEY, Hostile  # noqa: E402
from joint import PARTS, Joint  # noqa: E402
from ledger import Ledger  # noqa: E402
from primitives import Real  # noqa: E402
from repeats import Repeats  # noqa: E402

GUARD = bytes([0xA5]) * 32
# What stands in the numbers that a count or a check is lent; none has as many.
LENT = 0xA5A5A5A5A5A5A5A5


class Difference(Exception):
    pass


# Another implementation of F and E


def libcrypto_cipher():
    """ChaCha20 of OpenSSL's libcrypto, or None where that cannot be loaded."""
    try:
        lib = ctypes.CDLL("libcrypto.so.3")
    except OSError:
        return None
    pointer, number = ctypes.c_void_p, ctypes.c_int
    lib.EVP_CIPHER_CTX_new.restype = lib.EVP_chacha20.restype = pointer
    lib.EVP_EncryptInit_ex.argtypes = [pointer] * 3 + [ctypes.c_char_p] * 2
    lib.EVP_EncryptUpdate.argtypes = [pointer, pointer, pointer, ctypes.c_char_p, number]
    context, chacha20 = lib.EVP_CIPHER_CTX_new(), lib.EVP_chacha20()

    def cipher(key, nonce, text):
        out, length = ctypes.create_string_buffer(len(text) + 64), number()
        assert lib.EVP_EncryptInit_ex(context, chacha20, None, key, b"\1\0\0\0" + nonce) == 1
        assert lib.EVP_EncryptUpdate(context, out, ctypes.byref(length), text, len(text)) == 1
        assert length.value == len(text)
        return out.raw[:len(text)]
    return cipher


class Other(Real):
    """The model's suite: F as Python's hmac gives it, kept once computed; E of libcrypto, or the
    model's own where that is missing."""

    libcrypto = libcrypto_cipher()
    F = staticmethod(functools.lru_cache(maxsize=1 << 18)(Real.F))
    E = staticmethod(libcrypto or Real.E)


# The library


class Arena:
    """Where an argument lies: it ends at a page that can be neither read nor written, so that a call
    that reaches past it stops the test; before it stand bytes that a call must leave."""

    SIZE = 1 << 21

    def __init__(self):
        self.map = mmap.mmap(-1, self.SIZE + mmap.PAGESIZE)
        self.start = ctypes.addressof(ctypes.c_char.from_buffer(self.map))
        libc = ctypes.CDLL(None, use_errno=True)
        libc.mprotect.argtypes = [ctypes.c_void_p, ctypes.c_size_t, ctypes.c_int]
        assert libc.mprotect(self.start + self.SIZE, mmap.PAGESIZE, 0) == 0

    def put(self, content):
        self.n, self.at = len(content), self.SIZE - len(content)
        self.map[self.at - len(GUARD):self.at] = GUARD
        self.map[self.at:self.SIZE] = content
        return self.start + self.at

    def content(self):
        if self.map[self.at - len(GUARD):self.at] != GUARD:
            raise Difference("a call wrote before what it was lent")
        return self.map[self.at:self.SIZE]


class Library:
    """Each call takes bytes and gives what it returned, and the bytes after it of what it writes."""

    CALLS = {  # r: bytes that are read; w: bytes that are written; a: an array; n: a number
        "sha256": "ra", "hmac": "rra", "chacha20": "rrw", "insert_token": "rrrnnra",
        "find_token": "rrra", "count_token": "rrra", "compaction_token": "ra", "mark_token": "rrra", "part_token": "rrra",
        "make": "nnnnnw", "insert": "wrrr", "erase": "wr", "find": "rrw", "count": "rr", "count_tallied": "rra",
        "compact": "wrr", "order": "w", "test": "rrr", "joint_find": "rrw", "check": "ra"}

    def __init__(self, path):
        self.library = ctypes.CDLL(str(path))
        self.counts = collections.Counter()  # counts by both functions: done with and without rows, or a refusal's number
        self.checks = collections.Counter()  # checks: all 0, or not, or a refusal's number
        self.arenas = [Arena() for _ in range(7)]
        for name, kinds in self.CALLS.items():
            function = getattr(self.library, "mazhkuri_" + name)
            slice = [ctypes.c_void_p, ctypes.c_size_t]
            types = {"r": slice, "w": slice, "a": slice[:1], "n": [ctypes.c_uint64]}
            function.argtypes = [t for kind in kinds for t in types[kind]]
            function.restype = ctypes.c_int64
            setattr(self, name, functools.partial(self.call, function, kinds))

    def call(self, function, kinds, *arguments):
        raw, lent, written = [], [], None
        for kind, argument, arena in zip(kinds, arguments, self.arenas):
            if kind == "n":
                raw.append(argument)
                continue
            raw += [arena.put(argument)] + ([] if kind == "a" else [len(argument)])
            lent.append((kind, argument, arena))
        told = function(*raw)
        for kind, argument, arena in lent:
            content = arena.content()
            if kind != "r":
                written = content
            elif content != argument:
                raise Difference("a call wrote to what it may only read")
        return told, written


def packed(values):
    return functools.reduce(lambda n, value: n * 2**32 + value, values, 0)


def encoded(answer):
    """The number that stands for an answer."""
    if isinstance(answer, Refused):
        return -(answer.number + 256 * packed(answer.carried))
    return packed(answer.values)


def counted(library, store, token):
    """A count by both functions: the number, which is the same, and the rows; where it is refused, what was lent for them
    is left, and there are none."""
    lent = LENT.to_bytes(8, sys.byteorder)
    told, rows = library.count_tallied(store, token, lent)
    same("Count, without rows and with them", library.count(store, token)[0], told)
    if told < 0:
        same("Count, rows of a refusal", rows, lent)
    rows = None if told < 0 else int.from_bytes(rows, sys.byteorder)
    library.counts[-told if told < 0 else "rows" if rows else "no rows"] += 1
    return told, rows


def checked(library, store):
    """A check: its sum, and the seven numbers; where it is refused, what was lent for them is left, and there are none."""
    lent = LENT.to_bytes(8, sys.byteorder) * 7
    told, numbers = library.check(store, lent)
    if told < 0:
        same("Check, numbers of a refusal", numbers, lent)
    library.checks[-told if told < 0 else "all 0" if told == 0 else "not all 0"] += 1
    return told, None if told < 0 else tuple(int.from_bytes(n, sys.byteorder) for n in scheme.parts(numbers, 8))


def returned(call, answer):
    """What the library returns for an answer of the model; of a count with the rows looked at, of a check the sum with the
    numbers."""
    if isinstance(call, calls.Check) and isinstance(answer, Done):
        return sum(answer.values), answer.values
    told = encoded(calls.compared(call, answer))
    if isinstance(call, calls.Count):
        return told, answer.values[1] if isinstance(answer, Done) else None
    return (told, None) if isinstance(call, calls.Check) else told


def same(what, got, wanted):
    if got != wanted:
        show = [x.hex() if isinstance(x, bytes) and len(x) <= 4096 else compare.short(x) for x in (got, wanted)]
        raise Difference("%s: the library gives %s, expected %s" % (what, *show))


# Hash, F and E

EDGES = [319, 320, 321, 1023, 1024, 1025, 4095, 4096, 65535, 65536, 65537]


def primitives(library, generator):
    tried = 0
    for n in list(range(301)) + EDGES:
        message, lent = generator.randbytes(n), generator.randbytes(32)
        long = n > 65536
        told = (-9, lent) if long else (0, hashlib.sha256(message).digest())
        same("hash of %d bytes" % n, library.sha256(message, lent), told)
        for m in (0, 1, 31, 32, 33, 63, 64, 65, 127, 128, 129, 200) if n < 301 else (32, 65536, 65537):
            key = generator.randbytes(m)
            refused = long or m > 65536
            told = (-9, lent) if refused else (0, hmac.digest(key, message, "sha256"))
            same("F of a key of %d and %d bytes" % (m, n), library.hmac(key, message, lent), told)
            tried += 1
        key, nonce = generator.randbytes(32), generator.randbytes(12)
        told = (-9, message) if long else (0, Other.E(key, nonce, message))
        same("E of %d bytes" % n, library.chacha20(key, nonce, message), told)
        if not long:
            same("E undone", library.chacha20(key, nonce, told[1]), (0, message))
        tried += 3
    for k in (0, 12, 31, 32, 33):
        for n in (0, 11, 12, 13, 32):
            for t in (0, 1, 64, 65536, 65537):
                key, nonce, text = (generator.randbytes(x) for x in (k, n, t))
                told = (-1 if k != 32 else -4 if n != 12 else -9, text)
                if k == 32 and n == 12 and t <= 65536:
                    told = (0, Other.E(key, nonce, text))
                same("E, lengths %d, %d, %d" % (k, n, t), library.chacha20(key, nonce, text), told)
                tried += 1
    return "%d calls" % tried


def published(library):
    """What is published: the vectors of the program crates/vectors, NIST's key derivations, and NIST's Monte Carlo
    test of SHA-256, a chain of hashes, each of the three before it, of which every thousandth is given [01:KF7]."""
    calls_of = {vectors.HASH: library.sha256, vectors.MAC: library.hmac, vectors.CIPHER: library.chacha20}
    tried = 0
    for part in vectors.PUBLISHED + [vectors.published_derivations]:
        for kind, strings, line in part():
            arguments = [s.bytes for s in strings] + ([] if kind == vectors.CIPHER else [bytes(32)])
            told, output = calls_of[kind](*arguments)
            same(part.__name__, (told, vectors.told(output)), (0, line))
            tried += 1
    seed, *rest = vectors.entries(vectors.package_file("/SHA2/SHA256Monte.rsp"))
    start = bytes.fromhex(seed["Seed"])
    for entry in rest:
        three = [start] * 3
        for _ in range(1000):
            three = three[1:] + [library.sha256(b"".join(three), bytes(32))[1]]
        start = three[2]
        same("the Monte Carlo test, %s" % entry["COUNT"], start.hex(), entry["MD"])
    if tried < 900 or len(rest) != 100:
        raise Difference("the published files are not what they were: %d and %d entries" % (tried, len(rest)))
    return "%d vectors, %d thousand hashes of the Monte Carlo test" % (tried, len(rest))


# Tokens and calls


MAKINGS = {"Insert": ("insert_token", 173), "Find": ("find_token", 96), "Count": ("count_token", 32),
           "Compact": ("compaction_token", 32), "Test": ("mark_token", 32), "JointFind": ("part_token", 128)}


def token_of(library, model, call, generator):
    """The token that the call takes, by the library, held to the model's; None where its making is refused."""
    kind = type(call).__name__
    if kind != "JointFind":
        arguments = {"Insert": "key name value p u nonce", "Compact": "key"}.get(kind, "key name value").split()
        made = token_made(library, kind, [getattr(call, name) for name in arguments], model.token(call), generator)
    else:
        # The parts are made in order, and the first refused ends it [02:W4.24 W4.25].
        made = b""
        for part in call.parts:
            one = token_made(library, kind, part, model.part_token(*part), generator)
            if one is None:
                made = None
                break
            made += one
    same("%s token, refused" % kind, made is None, isinstance(model.token(call), Refused))
    return made


def token_made(library, kind, arguments, wanted, generator):
    making, length = MAKINGS[kind]
    lent = generator.randbytes(length)
    told = getattr(library, making)(*arguments, lent)
    if isinstance(wanted, Refused):
        same("%s token" % kind, told, (encoded(wanted), lent))
        return None
    same("%s token" % kind, told, (length, wanted))
    return wanted


def by_library(library, store, kind, token, call):
    """What the library returns, a count's rows or a check's numbers with it, the output after it, and the store after it."""
    if kind in ("Find", "JointFind"):
        told, output = (library.find if kind == "Find" else library.joint_find)(store, token, call.output)
        return told, output, store
    if kind == "Count":
        return counted(library, store, token), None, store
    if kind == "Check":
        return checked(library, store), None, store
    if kind == "Test":
        return library.test(store, call.id, token)[0], None, store
    if kind == "Insert":
        told, after = library.insert(store, call.ids, call.nonces, token)
    elif kind == "Erase":
        told, after = library.erase(store, call.id)
    elif kind == "Order":
        told, after = library.order(store)
    else:
        told, after = library.compact(store, call.nonces, token)
    return told, None, after


def by_model(model, store, kind, token, call):
    """The model's answer, the output after it, and the store after it."""
    store, output = bytearray(store), None
    if kind in ("Find", "JointFind"):
        output = bytearray(call.output)
        answer = (model.find if kind == "Find" else model.joint_find)(store, token, output)
        output = bytes(output)
    elif kind == "Count":
        answer = model.count(store, token)
    elif kind == "Test":
        answer = model.test(store, call.id, token)
    elif kind == "Insert":
        answer = model.insert(store, token, call.nonces, call.ids)
    elif kind == "Erase":
        answer = model.erase(store, call.id)
    elif kind == "Order":
        answer = model.order(store)
    elif kind == "Check":
        answer = model.check(store)
    else:
        answer = model.compact(store, token, call.nonces)
    return answer, output, bytes(store)


def operate(library, model, store, kind, token, call):
    """One operation by the library and by the model: the answer, the output and the whole store after it, which are
    alike."""
    told, output, after = by_library(library, store, kind, token, call)
    answer, wanted_output, wanted = by_model(model, store, kind, token, call)
    same(kind, told, returned(call, answer))
    same(kind + ", output", output, wanted_output)
    same(kind + ", store", after, wanted)
    return answer, output, after


def note(tally, kind, answer):
    key = (kind, answer.number if isinstance(answer, Refused) else "done")
    tally[key] = tally.get(key, 0) + 1


def numbers_told(tally):
    return sorted({n for _, n in tally if n != "done"})


def progress(began, shown, what, i, number):
    if time.time() - shown < 10:
        return shown
    print("  %s: %d of %d, %.0f s" % (what, i, number, time.time() - began), flush=True)
    return time.time()


def made(library, model, p, sizes, generator):
    """A made store; before it, makings that are refused."""
    n = scheme.length_of(*sizes)
    for q, z, length in ((p, sizes, n), (generator.choice((16, 257)), sizes, n),
                         (p, (0,) + sizes[1:], n), (p, sizes[:2] + (4097,) + sizes[3:], n), (p, sizes[:3] + (0,), n),
                         (p, sizes[:3] + (0,), n - 61 * sizes[3]), (p, sizes[:3] + (4097,), n), (p, sizes, n - 1), (p, sizes, n + 1)):
        lent = generator.randbytes(length)
        store = bytearray(lent)
        answer = model.make(store, q, *z)
        same("make", library.make(q, *z, lent), (encoded(answer), bytes(store)))
    store = bytearray(n)
    model.make(store, p, *sizes)
    return bytes(store)


def one_list(library, model, drawn, listed, tally, *tallies):
    """A list of calls on a made store, against model store and ledger both."""
    ledger = Ledger(drawn.p, *drawn.sizes)
    for met in tallies:
        met.begin()
    store = made(library, model, drawn.p, drawn.sizes, drawn.r)
    try:
        for at, call in enumerate(listed):
            kind = type(call).__name__
            wanted, wanted_output = ledger.call(call)
            takes_token = kind not in ("Erase", "Order", "Check")
            token = token_of(library, model, call, drawn.r) if takes_token else None
            if takes_token and token is None:
                answer, output = model.token(call), call.output if calls.has_output(call) else None
            else:
                answer, output, store = operate(library, model, store, kind, token, call)
            if (calls.compared(call, answer), output) != (wanted, wanted_output):
                raise Difference("%s: the library gives %r, the ledger %r" % (kind, answer, wanted))
            note(tally, kind, answer)
            for met in tallies:
                met.call(ledger, call, answer)
    except Difference as difference:
        compare.show(drawn, listed, difference, "call %d of a list" % at)
        raise


def lists(library, number, seed):
    drawn, tally, repeats, joint = compare.Lists(seed, 40), {}, Repeats(), Joint()
    model = scheme.Scheme(Other)
    began = shown = time.time()
    for i in range(number):
        one_list(library, model, drawn, drawn.draw(), tally, repeats, joint)
        shown = progress(began, shown, "lists", i + 1, number)
    if number >= 1000:
        often = {n: sum(v for (_, k), v in tally.items() if k == n) for n in (15, 16, 17, 18, 19, 21)}
        if not compare.all_told(tally, repeats, joint, number // 40) or min(often.values()) < number / 40:
            raise Difference("not tried often enough: %r" % often)
    return "%d lists, %d calls, told %s, %s, %s" % (number, sum(tally.values()), numbers_told(tally), repeats, joint)


def large(library, seed):
    """A list on the largest store: 64 ids at a time, in three of 16 shares."""
    drawn, tally = compare.Lists(seed, 1), {}
    drawn.draw()
    r, drawn.p, drawn.sizes = drawn.r, 15, (4096, 4096, 4096, 4096)
    ids = [r.randbytes(16) for _ in range(200)]
    field, other, nonces = compare.FIELDS[0], compare.FIELDS[1], r.randbytes

    def insert(u, j, field=field):
        return calls.Insert(drawn.key, *field, 15, u, nonces(12), nonces(nonce_bytes(j)),
                            b"".join(r.choice(ids) for _ in range(j)))

    def joint(fields, room):
        return calls.JointFind([calls.Part(drawn.key, *name) for name in fields], bytes(16 * room))

    listed = []
    for part in range(3):
        listed += [insert(u, j) for u, j in ((0, 64), (7, 63), (15, 1), (0, 2))] + [insert(9, 50, other)]
        listed += [calls.Erase(id) for id in ids[part::50]]
        listed += [calls.Find(drawn.key, *field, bytes(16 * n)) for n in (10, 4096)]
        listed += [calls.Test(drawn.key, *name, id) for name in (field, other) for id in ids[:4]]
        listed += [joint(fields, n) for fields in ((field, other), (other, field), (other,) * 8) for n in (1, 4096)]
        listed += [calls.Count(drawn.key, *field)]
        listed += [calls.Compact(drawn.key, nonces(12 * n)) for n in (4, 5)]
        listed += [calls.Order(), calls.Check()]
    one_list(library, scheme.Scheme(Other), drawn, listed, tally)
    return "%d calls, told %s" % (sum(tally.values()), numbers_told(tally))


# Ids with many entries


class Filled:
    """The largest store, on which the model store is slow: each answer and output of the library is held to the
    ledger's."""

    SIZES = (4096, 4096, 4096, 4096)

    def __init__(self, library, p, generator, repeats):
        self.library, self.p, self.r, self.repeats = library, p, generator, repeats
        self.model, self.ledger, self.calls = scheme.Scheme(Other), Ledger(p, *self.SIZES), 0
        self.key, self.field = generator.randbytes(32), compare.FIELDS[0]
        store = bytearray(scheme.length_of(*self.SIZES))
        self.model.make(store, p, *self.SIZES)
        self.store = bytes(store)
        repeats.begin()

    def call(self, call):
        wanted, wanted_output = self.ledger.call(call)
        kind, token, before = type(call).__name__, self.model.token(call), self.store
        told, output, self.store = by_library(self.library, self.store, kind, token, call)
        if kind == "Count":
            # The ledger has no rows; the model store is not slow here.
            answer = self.model.count(self.store, token)
            same("the model's count", calls.compared(call, answer), wanted)
            same(kind, told, returned(call, answer))
        else:
            same(kind, told, returned(call, wanted))
        same(kind + ", output", output, wanted_output)
        same(kind + ", in form", self.store == before or form.in_form(self.store), True)
        self.repeats.call(self.ledger, call, wanted)
        self.calls += 1
        return wanted

    def insert(self, u, ids):
        """Ids into a share, 64 at a time."""
        for at in range(0, len(ids), 64):
            part = ids[at:at + 64]
            answer = self.call(calls.Insert(self.key, *self.field, self.p, u, self.r.randbytes(12),
                                            self.r.randbytes(nonce_bytes(len(part))), b"".join(part)))
            same("an insert is done", type(answer), Done)

    def entries(self):
        return self.ledger.joined(*self.field)

    def finds(self):
        """Outputs at both sides of what the different ids take, and of what the entries take."""
        ids, entries = 16 * len(set(self.entries())), 16 * len(self.entries())
        for room in sorted({0, ids - 16, ids - 1, ids, ids + 1, entries - 1, entries, 16 * 4096 + 5}):
            if room >= 0:
                self.call(calls.Find(self.key, *self.field, self.r.randbytes(room)))
        self.call(calls.Count(self.key, *self.field))
        self.call(calls.Check())
        self.tests(ids)

    def tests(self, room):
        """Tests of ids that have many rows of R, or one, or none; joint finds of this field with itself, where every id is tested,
        and with one that no insert named [02:W4.17 W4.21]."""
        often = [id for id, _ in collections.Counter(self.entries()).most_common()]
        for id in often[:2] + often[-2:] + [self.r.randbytes(16)]:
            for field in (self.field, compare.NEVER):
                self.call(calls.Test(self.key, *field, id))
        part, never = calls.Part(self.key, *self.field), calls.Part(self.key, *compare.NEVER)
        for parts, length in (([part], room), ([part] * 2, room), ([part] * 2, max(0, room - 1)), ([part, never], 0)):
            self.call(calls.JointFind(parts, self.r.randbytes(length)))

    def changes(self):
        """Ids erased, one of them inserted again, a compaction: finds after each."""
        ids = collections.Counter(self.entries()).most_common()
        gone = [ids[-1][0], ids[len(ids) // 2][0], ids[0][0]]
        for id in gone:
            self.call(calls.Erase(id))
        self.finds()
        for u in (self.p, 0):
            self.insert(u, [gone[-1]] * 2)
        self.finds()
        self.call(calls.Compact(self.key, self.r.randbytes(12 * 4096)))
        self.finds()
        self.mixed()

    def mixed(self):
        """The same rows in any place: 20, and after an order the same bytes as before it, and the ledger's answers
        [02:W2.5 W2.6 W2.10]."""
        store = bytearray(self.store)
        for t in scheme.tables(store).values():
            rows = [scheme.row(store, t, i) for i in range(t.rows)]
            self.r.shuffle(rows)
            form.written(store, t, rows)
        token = self.model.find_token(self.key, *self.field)
        same("20", self.library.find(bytes(store), token, b""), (-20, b""))
        mixed, kept = bytes(store), self.store
        self.store = mixed
        self.call(calls.Order())
        same("order of rows in any order", self.store, kept)
        self.finds()


def one_byte_changed(id):
    """The ids that differ from one in a byte."""
    return [id[:at] + bytes([other]) + id[at + 1:] for at in range(16) for other in range(256) if other != id[at]]


def repeated(library, seed):
    """Thousands of entries of few ids, of one, of ids that differ in one byte, in all shares, and of ids that are
    multiples of one number, as would fall into one bucket of a hash table [02:W1.1 W1.2 W1.3 W1.4 W1.6]."""
    r, repeats, made = random.Random(seed), Repeats(), 0
    hundred, one = [r.randbytes(16) for _ in range(100)], r.randbytes(16)
    near = [one] + one_byte_changed(one)
    steps = [(4093 * n << shift).to_bytes(16, "big") for shift in (0, 64) for n in range(1000)]
    for p, ids, wanted in (
            (0, [r.choice(hundred) for _ in range(3900)] + hundred, (4000, 100, 1)),
            (3, [one] * 4000, (4000, 1, 4)),
            (1, r.sample(near, len(near)) + near[:10], (4091, 4081, 2)),
            (15, [r.choice(hundred[:80]) for _ in range(3920)] + hundred[:80], (4000, 80, 16)),
            (0, steps + r.sample(steps, len(steps)), (4000, 1999, 1))):
        filled = Filled(library, p, r, repeats)
        shares = p + 1
        for u in r.sample(range(shares), shares):
            filled.insert(u, ids[u::shares])
        entries = collections.Counter(filled.entries())
        several = sum(any(entries[id] > 1 for id in listed) for listed in filled.ledger.lists.values())
        same("entries, different ids, shares with repeats", (sum(entries.values()), len(entries), several), wanted)
        filled.finds()
        if len(entries) == 100:
            # What the model finds in the library's bytes, here alone: it is slow.
            output = bytearray(1600)
            token = filled.model.find_token(filled.key, *filled.field)
            same("the model's find", filled.model.find(filled.store, token, output), Done((100,)))
            same("its output", library.find(filled.store, token, bytes(1600)), (100, bytes(output)))
        filled.changes()
        made += filled.calls
    seldom = repeats.too_seldom(5)
    if seldom:
        raise Difference("not tried often enough: %s" % seldom)
    return "%d calls, %s" % (made, repeats)


# Hostile stores


class Stores(Hostile):
    """Broken stores; what they are made from is drawn once for many of them."""

    def __init__(self, seed, suite, bases):
        super().__init__(seed, suite)
        self.bases = []
        for _ in range(bases):
            self.shape()
            model, store = scheme.Scheme(suite), bytearray(scheme.length_of(*self.sizes))
            model.make(store, self.p, *self.sizes)
            for _ in range(self.r.randint(0, 2 * self.sizes[2])):
                model.call(store, self.call())
            self.bases.append((self.p, self.sizes, self.known, bytes(store)))

    def broken(self):
        r, model = self.r, scheme.Scheme(self.suite)
        self.p, self.sizes, self.known, base = r.choice(self.bases)
        store = bytearray(base)
        self.counts = [0, 1, 2, 5, scheme.GREATEST + 1, 2 ** 64 - 1]
        if r.random() < 0.3:
            self.counts += [scheme.GREATEST - 2, scheme.GREATEST - 1, scheme.GREATEST]
        self.break_contents(model, store, r.choice((1, 1, 2, 3, 5, 8)))
        self.settle(model, store)
        return bytes(store)

    def other(self, right):
        """Mostly the right token; now and then damaged, random or of another length."""
        kind = self.r.random()
        if kind < 0.9:
            return right
        if kind < 0.94:
            at = self.r.randrange(len(right))
            return right[:at] + bytes([right[at] ^ self.r.randint(1, 255)]) + right[at + 1:]
        return self.bytes(len(right)) if kind < 0.97 else right[:-1] if kind < 0.985 else right + b"\0"

    def each(self, store):
        """A call of each kind, with its token."""
        r, model = self.r, scheme.Scheme(self.suite)
        field, u = r.choice(FIELDS), r.randint(0, self.p)
        id, j = self.id(), r.choice((1, 1, 2, 3))
        p = self.p if r.random() < 0.95 else self.p + 1
        insert = calls.Insert(KEY, *field, p, u, self.bytes(12), self.bytes(nonce_bytes(j)), id * j)
        nonces = r.choice((self.sizes[2], self.sizes[2], r.randint(0, self.sizes[2])))
        # Wrong lengths are told before the store is looked at.
        wrong = r.random() < 0.03
        for call in (insert._replace(ids=id * j + b"\0" * wrong), calls.Erase(id[:15] if wrong else id), calls.Count(KEY, *field),
                     calls.Find(KEY, *field, self.bytes(self.room(model, store, field))),
                     calls.Compact(KEY, self.bytes(12 * nonces + wrong)), calls.Order(),
                     calls.Test(KEY, *field, id[:15] if wrong else id),
                     calls.JointFind(self.joint_parts(), self.bytes(r.choice((0, 15, 16, 32, 96, 200)))), calls.Check()):
            token = model.token(call)
            yield type(call).__name__, token and self.other(token), call

    def room(self, model, store, field):
        """An output's length: any, or at either side of what the different ids and the entries take."""
        r, shares = self.r, found(model, store, model.find_token(KEY, *field))
        if shares is None or r.random() < 0.5:
            return r.choice((0, 15, 16, 96, 200))
        entries = [id for ids in shares for id in ids]
        return max(0, 16 * len(r.choice((entries, set(entries), set(entries)))) + r.choice((-16, -1, 0, 1)))


def found(model, store, token, most=1000):
    """For each share the ids of its entries; None where a find is refused before 18, or would walk a forged
    count, for which there is no time."""
    if walks_far(model, store, token, most) or calls.first(model.find_all_conditions(store, token)):
        return None
    return model.shares(store, token)


def walks_far(model, store, token, most=1000):
    """Whether a find, or a joint find by any of its parts, would walk a forged count, for which there is no time."""
    width = calls.FIND_TOKEN if len(token) == calls.FIND_TOKEN else calls.PART
    if len(token) % width or calls.first(model.state_conditions(store)):
        return False
    counts = [model.counts(store, part[64:96]) for part in scheme.parts(token, width)]
    return any(found is not None and sum(found) > most for found in counts)


def hostile_stores(library, number, seed):
    drawn, tally, left_out, repeats = Stores(seed, Other, 400), {}, 0, Repeats()
    forms, orders, marks = form.Forms(), hostile.Orders(), hostile.Marks()
    model = scheme.Scheme(Other)
    began = shown = time.time()
    for i in range(number):
        store = drawn.broken()
        if not calls.first(model.store_conditions(store)):
            forms.store(store)
        for kind, token, call in drawn.each(store):
            if calls.has_output(call) and walks_far(model, store, token):
                left_out += 1
                continue
            try:
                answer, output, after = operate(library, model, store, kind, token, call)
                fault = hostile.fault_of(call, answer, output, store, after)
                if fault:
                    raise Difference(fault)
            except Difference:
                print("store %d, seed %d: %s\n%r %s" % (i, seed, store.hex(), call, token and token.hex()))
                raise
            note(tally, kind, answer)
            for met in (orders, marks):
                met.call(model, store, kind, token, call, answer)
            if kind == "Find":
                repeats.find(found(model, store, token) or [], answer, len(call.output))
        shown = progress(began, shown, "hostile stores", i + 1, number)
    missing = {4, 5, 6, *range(10, 22)} - set(numbers_told(tally))
    if number >= 5000 and missing:
        raise Difference("not tried: %s" % sorted(missing))
    # A broken store tells nothing of what was erased before.
    seldom = repeats.too_seldom(number // 200, but=["after an erase"])
    seldom.update(forms.too_seldom(number // 2000))
    seldom.update(orders.too_seldom(number // 500))
    seldom.update(marks.too_seldom(number // 400))
    if number >= 5000 and seldom:
        raise Difference("not tried often enough: %s" % seldom)
    return "%d stores, %d calls, %d finds of forged counts left out, told %s, %s, %s, %s, %s" % (
        number, sum(tally.values()), left_out, numbers_told(tally), forms, orders, marks, repeats)


def long_walks(library, number, seed):
    """Finds and joint finds by forged counts that sum to either side of the rows that a table can have, as counts do after many
    erases; entries of few ids at near and far addresses."""
    drawn, repeats, sums = Stores(seed, Other, 0), Repeats(), []
    r, model = drawn.r, scheme.Scheme(Other)
    for i in range(number):
        drawn.p, drawn.sizes = r.choice((0, 1, 2)), [r.randint(6, 16), 6, 6, 12]
        store = bytearray(scheme.length_of(*drawn.sizes))
        model.make(store, drawn.p, *drawn.sizes)
        sums.append((4095, 4096, 4097, r.randint(4098, 10000))[i % 4])
        cuts = sorted(r.randint(0, sums[-1]) for _ in range(drawn.p))
        counts = [y - x for x, y in zip([0] + cuts, cuts + [sums[-1]])]
        for u, count in enumerate(counts):
            cl = model.F(model.counter_key(KEY, *FIELDS[0]), scheme.number(u))
            model.put_c(store, cl, model.counter_tag(cl, 1), drawn.bytes(12), 0, count)
        for _ in range(2 * drawn.sizes[0]):
            drawn.entry(model, store, FIELDS[:1], [1, 2] + [n + more for n in counts for more in (-1, 0, 1)])
        for _ in range(6):
            drawn.label(model, store)
        model.order(store)
        token = model.find_token(KEY, *FIELDS[0])
        shares = found(model, bytes(store), token, most=10000)
        different = len({id for ids in shares for id in ids})
        for room in sorted({16 * different, max(0, 16 * different - 16), 16 * sum(map(len, shares))}):
            call = calls.Find(KEY, *FIELDS[0], drawn.bytes(room))
            answer, _, _ = operate(library, model, bytes(store), "Find", token, call)
            repeats.find(shares, answer, room)
            for n in (1, 2):
                parts = [calls.Part(KEY, *FIELDS[0])] * n
                call = calls.JointFind(parts, drawn.bytes(room))
                operate(library, model, bytes(store), "JointFind", model.joined_parts(parts), call)
    seldom = repeats.too_seldom(number // 10, but=["after an erase"])
    if seldom:
        raise Difference("not tried often enough: %s" % seldom)
    return "%d stores, counts from %d to %d, %s" % (number, min(sums), max(sums), repeats)


def any_place(library, number, seed):
    """Stores with rows in any place: each call but an order is refused by 20, and after an order every find, count and joint find
    tells what it told [02:W2.6 W2.7 W2.8 W2.9 W2.10 W2.11]. Then a list goes on, and leaves the model's bytes."""
    r, model, out, key, field = random.Random(seed), scheme.Scheme(Other), 0, placing.KEY, placing.FIELDS[0]
    for i in range(number):
        p, sizes = r.choice((0, 1, 2)), tuple(r.randint(2, 20) for _ in range(4))
        place = placing.lowest if i % 2 else placing.random_place(r)
        store, _, before = placing.filled(Other, place, p, sizes, r.randint(1, 25), r, junk=i % 5 == 0)
        told = placing.readings(before, store)
        others = [calls.Insert(key, *field, p, 0, bytes(12), bytes(36), bytes(16)), calls.Erase(bytes(16)), calls.Count(key, *field),
                  calls.Find(key, *field, bytes(48)), calls.Compact(key, b""), calls.Test(key, *field, bytes(16)),
                  calls.JointFind([calls.Part(key, *field)] * 2, bytes(48)), calls.Check()]
        if placing.out_of_form(store):
            out += 1
            for call in others:
                kind = type(call).__name__
                answer, _, _ = operate(library, model, store, kind, model.token(call), call)
                same("%s on rows in any place" % kind, answer, Refused(20, ()))
        rows = {name: sorted(scheme.used_rows(store, t)) for name, t in scheme.tables(store).items()}
        answer, _, after = operate(library, model, store, "Order", None, calls.Order())
        same("how many rows", answer, Done((sum(map(len, rows.values())),)))
        same("the rows", {name: scheme.used_rows(after, t) for name, t in scheme.tables(after).items()}, rows)
        for call, wanted in zip(placing.reading_calls(), told):
            answer, output, _ = operate(library, model, after, type(call).__name__, model.token(call), call)
            same("%s after an order" % type(call).__name__, (calls.compared(call, answer), output), wanted)
        for call in others:
            _, _, after = operate(library, model, after, type(call).__name__, model.token(call), call)
    if out < number // 2:
        raise Difference("only %d of %d stores were out of form" % (out, number))
    return "%d stores, %d of them out of form" % (number, out)


def two_histories(library, number, seed):
    """The same inserts in two orders leave the same bytes [02:W2.5]."""
    r, moved = random.Random(seed), 0
    for _ in range(number):
        told = compare.two_histories(r, Other, library_calls(library))
        if isinstance(told, str):
            raise Difference(told)
        moved += told
    return "%d pairs, %d inserts in another place" % (number, moved)


def library_calls(library):
    """The library in the place of a model store."""
    model = scheme.Scheme(Other)

    class ByLibrary:
        make = model.make

        def call(self, store, call):
            token = model.token(call)
            answer, output, after = operate(library, model, bytes(store), type(call).__name__, token, call)
            store[:] = after
            return answer, output

        def order(self, store):
            return self.call(store, calls.Order())[0]
    return ByLibrary


def last_and_first(library, seed):
    """The largest tables, full and nearly: one row out of its place, at the first pair, the last pair and between, in each
    table; a byte left over in the first and the last free row; rows that a search meets first and last."""
    r, model, sizes, tried = random.Random(seed), scheme.Scheme(Other), (4096, 4096, 4096, 4096), 0
    full = bytearray(scheme.length_of(*sizes))
    model.make(full, 0, *sizes)
    for name, t in scheme.tables(full).items():
        form.written(full, t, sorted(b"\1" + r.randbytes(t.width - 1) for _ in range(t.rows)))
    token = model.count_token(KEY, *FIELDS[0])

    def told(store, wanted):
        nonlocal tried
        tried += 1
        rows = None if wanted else model.rows_read(store, token)
        same("a count", counted(library, bytes(store), token), (wanted, rows))

    told(full, 0)
    for name, t in scheme.tables(full).items():
        for used in (4096, 4095, 2048, 2, 1, 0):
            store = bytearray(full)
            rows = [scheme.row(full, t, i) for i in range(used)]
            free = [bytes(t.width)] * (4096 - used)
            form.written(store, t, rows + free)
            told(store, 0)
            for i in {0, 1, used // 2, used - 2} & set(range(used - 1)):
                form.written(store, t, rows[:i] + [rows[i + 1], rows[i]] + rows[i + 2:] + free)
                told(store, -20)
            for i in {0, len(free) // 2, len(free) - 1} & set(range(len(free))):
                for at in (1, t.width - 1, r.randint(1, t.width - 1)):
                    left = bytearray(t.width)
                    left[at] = r.choice((1, 0x80, 255))
                    form.written(store, t, rows + free[:i] + [bytes(left)] + free[i + 1:])
                    told(store, -20)
            if 0 < used < 4096:
                form.written(store, t, free[:1] + rows + free[1:])
                told(store, -20)
                form.written(store, t, rows[:-1] + free + rows[-1:])
                told(store, -20)
                after = library.order(bytes(store))
                form.written(store, t, rows + free)
                same("an order", after, (sum(len(scheme.used(store, u)) for u in scheme.tables(store).values()), bytes(store)))
    return "%d stores of 4,096 rows" % tried


def around(r, t, wanted, n, place):
    """n rows with some of one tag at a place: all others smaller, greater, or on both sides of it, some by a little."""
    tag, others = int.from_bytes(wanted[0][1:33], "big"), []
    while len(others) < n - len(wanted):
        below = {"first": 0, "last": 1, "between": r.randrange(2)}[place]
        distance = r.choice((1, 2, r.randint(1, 2 ** 200), r.randint(1, 2 ** 255)))
        other = max(0, tag - distance) if below else min(2 ** 256 - 1, tag + distance)
        if other != tag:
            others.append(b"\1" + other.to_bytes(32, "big") + r.randbytes(t.width - 33))
    return sorted(wanted + others)


def marked_rows(model, r, rl, ids, n):
    """n rows of R in order: those of some of the ids, each several with or without RL's R mark, among others whose ids differ
    from theirs by one, or are the least and the greatest."""
    rows = []
    for id in ids:
        for nonce in [r.randbytes(12) for _ in range(r.choice((0, 1, 1, 2, 5)))]:
            rows.append(b"\1" + id + nonce + (model.r_mark(rl, nonce, id) if r.random() < 0.5 else r.randbytes(32)))
    rows = r.sample(rows, min(n, len(rows)))
    while len(rows) < n:
        beside = min(max(int.from_bytes(r.choice(ids), "big") + r.choice((-1, 1)), 0), 2 ** 128 - 1).to_bytes(16, "big")
        other = r.choice((beside, bytes(16), b"\xff" * 16, r.randbytes(16)))
        nonce = r.randbytes(12)
        mark = r.choice((r.randbytes(32), model.r_mark(rl, nonce, other), model.r_mark(rl, nonce, r.choice(ids))))
        rows.append(b"\1" + other + nonce + mark)
    return sorted(rows)


def searches(library, number, seed):
    """Entries, counters and anchors whose rows are first, last or between in their tables, of any number of rows up to the
    largest, with neighbours that differ from them by one, and several rows of one tag: the first of them is the one
    [01:ST13]; in R, of ids with several rows. Each call against the model, byte for byte."""
    r, model, field, tally = random.Random(seed), scheme.Scheme(Other), FIELDS[0], {}
    ids = [r.randbytes(16) for _ in range(3)]
    for i in range(number):
        big = i % 16 == 0
        rows = r.choice((4095, 4096)) if big else r.choice((4, 5, 7, 8, 9, 15, 16, 17, 31, 33, 60))
        free = r.choice((0, 1, rows // 2))
        p, sizes = 0, (rows, rows, rows, rows)
        store = bytearray(scheme.length_of(*sizes))
        model.make(store, p, *sizes)
        t = scheme.tables(store)
        token = model.insert_token(KEY, *field, p, 0, r.randbytes(12))
        mt, me, cl = token[1:33], token[33:65], token[65:97]
        nonces = [r.randbytes(12) for _ in range(4)]
        entries = [b"\1" + model.entry_tag(mt, 1) + n + model.E(me, n, r.choice(ids)) for n in nonces[:r.choice((1, 2, 3))]]
        kind = r.choice((model.counter_tag, model.anchor_tag))
        counters = [model.c_row(cl, kind(cl, 1), n, 0 if kind == model.counter_tag else 3, r.randint(1, 4))
                    for n in nonces[:r.choice((1, 1, 2))]]
        place = r.choice(("first", "last", "between"))
        used = max(rows - free, 4)
        form.written(store, t["M"], around(r, t["M"], entries, used, place) + [bytes(61)] * (rows - used))
        form.written(store, t["C"], around(r, t["C"], counters, used, place) + [bytes(61)] * (rows - used))
        # V's rows of an id name the first, the last and some other rows of M
        m = scheme.used_rows(store, t["M"])
        named = [m[0], m[-1], r.choice(m), r.choice(m)] + entries[:1]
        ways = [b"\1" + r.choice(ids) + x[1:33] for x in r.sample(named, r.randint(1, min(4, used)))]
        ways = ways[:used] + [b"\1" + r.choice((bytes(16), r.randbytes(16), b"\xff" * 16)) + r.randbytes(32) for _ in range(used - len(ways))]
        form.written(store, t["V"], sorted(ways[:used]) + [bytes(49)] * (rows - used))
        model.put(store, "S", *[b"\1" + token[97:141]] * r.choice((1, 2)))
        form.written(store, t["R"], marked_rows(model, r, token[141:], ids, used) + [bytes(61)] * (rows - used))
        store = bytes(store)
        same("in form", form.in_form(store), True)
        for call, given in ((calls.Count(KEY, *field), model.count_token(KEY, *field)),
                            (calls.Find(KEY, *field, bytes(64)), model.find_token(KEY, *field)),
                            *((calls.Erase(id), None) for id in ids),
                            *((calls.Test(KEY, *field, id), token[141:]) for id in ids),
                            (calls.JointFind([calls.Part(KEY, *field)] * 3, bytes(64)), model.part_token(KEY, *field) * 3),
                            (calls.Insert(KEY, *field, p, 0, bytes(12), r.randbytes(36), ids[0]), token),
                            (calls.Compact(KEY, r.randbytes(12 * 4)), model.compact_token(KEY))):
            answer, _, _ = operate(library, model, store, type(call).__name__, given, call)
            note(tally, type(call).__name__, answer)
    often = {kind: n for (kind, told), n in tally.items() if told == "done"}
    if len(often) < 7 or min(often.values()) < number // 10:
        raise Difference("not tried often enough: %r" % tally)
    return "%d stores, done %s, told %s" % (number, often, numbers_told(tally))


def refused_counts(generator, store, token):
    """A count's store and token in each of the ways that refuse it but damage, with the refusal's number."""
    r, t = generator, scheme.tables(store)["C"]
    for length in (0, 31, 33, 64):
        yield store, (token * 2)[:length], 6
    for at, byte in ((0, 1), (0, 3), (1, 16), (4, 17), (5, 0), (8, 17), (9, 0)):
        yield store[:at] + bytes([byte]) + store[at + 1:], token, 10
    for n in (0, 9, 10, len(store) - 1):
        yield store[:n], token, 10
    yield store + b"\0", token, 10
    i = r.randrange(t.rows)
    yield store[:t.start + 61 * i] + bytes([r.choice((2, 255))]) + store[t.start + 61 * i + 1:], token, 11
    broken = bytearray(store)
    form.break_form(r, broken, "C")
    if not form.in_form(broken):
        yield bytes(broken), token, 20


def rows_looked_at(library, number, seed):
    """Counts with the rows looked at, on stores made for them, and refused in each way on some of those [01:FM7]
    [02:W3.1 W3.2 W3.3 W3.4 W3.5 W3.6 W3.7 W3.8 W3.9 W3.10 W3.11 W3.12]."""
    drawn, met, model, refused = looked.Stores(seed, Other), looked.Looked(), scheme.Scheme(Other), collections.Counter()

    def tried(store, token):
        answer, _, _ = operate(library, model, store, "Count", token, calls.Count(b"", b"", b""))
        return answer

    for i in range(number):
        store, token = drawn.draw()
        fault = met.fault(model, store, token, tried(store, token))
        if fault:
            raise Difference("%s: store %d, seed %d: %s, token %s" % (fault, i, seed, store.hex(), token.hex()))
        for broken, other, wanted in refused_counts(drawn.r, store, token) if i % 10 == 0 else ():
            same("refused", (tried(broken, other), counted(library, broken, other)), (Refused(wanted, ()), (-wanted, None)))
            refused[wanted] += 1
    seldom = met.too_seldom(number // 200)
    seldom.update({n: times for n, times in refused.items() if times < number // 20})
    if seldom or len(refused) != 4:
        raise Difference("not tried often enough: %s" % seldom)
    return "%d stores, refused besides damage %s, %s; %s" % (number, dict(refused), met, whole_tables(library, drawn))


def whole_tables(library, drawn):
    """The largest tables with c anchors and with c counters held, and one less: each held row is looked up once and ends its own
    lookup, so that c of them look at 1 + 2 + .. + c rows, whatever their order; the other lookups are the model's."""
    model, told = drawn.model, []
    for c in (4096, 4095, 100):
        for missing in (0, 1):
            for name in ("anchor", "counter"):
                store, token = bytearray(scheme.length_of(1, c, 1, 1)), drawn.r.randbytes(32)
                model.make(store, 0, 1, c, 1, 1)
                cl, n = model.F(token, scheme.number(0)), c - missing
                tag, other = (model.anchor_tag, model.counter_tag) if name == "anchor" else (model.counter_tag, model.anchor_tag)
                # Anchor n reads Start 7 and the count 9; counter n reads 0 and the count 9.
                first = 7 if name == "anchor" else 0
                model.put(store, "C", *(model.c_row(cl, tag(cl, i + 1), drawn.r.randbytes(12), first, 9) for i in range(n)))
                tags = model.tags_met(store)
                once = model.rows_at(tags, other(cl, 8 if name == "anchor" else 1))
                miss = model.rows_at(tags, tag(cl, n + 1)) if missing else 0
                wanted = n * (n + 1) // 2 + once + miss
                same("%d %ss of %d" % (n, name, c), counted(library, bytes(store), token), (9, wanted))
                told.append(wanted)
    if max(told) < 4096 * 4097 // 2:
        raise Difference("no table was walked whole")
    return "%d tables with c or c - 1 of a kind held, up to %d rows looked at" % (len(told), max(told))


def counts_made(library):
    """How often a count was done and refused, by both functions, in all parts."""
    made = library.counts
    seldom = {told: made[told] for told in ("rows", "no rows", 6, 10, 11, 13, 20) if made[told] < 50}
    if seldom:
        raise Difference("not counted often enough: %s" % seldom)
    return ", ".join("%s %d" % (told, n) for told, n in sorted(made.items(), key=str))


def parts_refused(store, parts):
    """Parts and store of joint finds that are refused in each way but by damage and 18, with the number [02:W4.18]."""
    for n in (0, 1, 96, 127, 129, 255, 257, 1023, 1025, 1152, 1280):
        yield (parts * 10)[:n], store, 6
    for at, byte in ((0, 1), (0, 3), (1, 16), (8, 17), (9, 0)):
        yield parts, store[:at] + bytes([byte]) + store[at + 1:], 10
    for n in (0, 9, 10, len(store) - 1):
        yield parts, store[:n], 10
    for name, t in scheme.tables(store).items():
        for i in (0, t.rows - 1):
            marked, left = bytearray(store), bytearray(store)
            marked[t.start + t.width * i] = 2
            yield parts, bytes(marked), 11
            if store[t.start + t.width * i] == 0:
                left[t.start + t.width * i + t.width - 1] = 1
                yield parts, bytes(left), 20


def with_other_marks(r, store, gone):
    """The store, still in form, without some rows of R or of V, all rows of one id among them; some R marks are others."""
    store = bytearray(store)
    for name in r.choice(("R", "R", "V")):
        t = scheme.tables(store)[name]
        rows = [row for row in scheme.used_rows(store, t) if row[1:17] != gone and r.random() < 0.8]
        if name == "R":
            rows = [row[:29] + r.choice((row[29:], row[29:], r.randbytes(32))) for row in rows]
        form.written(store, t, sorted(rows) + [bytes(t.width)] * (t.rows - len(rows)))
    return bytes(store)


def joint_finds(library, number, seed):
    """Joint finds of 1 to 8 parts and tests on stores of eight fields, of which each has some of twelve ids in an order of its own,
    against the ledger; rows of R then taken away or changed, against the model; every refusal on both sides of its limit; parts of
    another key, equal parts, one that no insert named [02:W4.17 W4.18 W4.19 W4.20 W4.21 W4.22 W4.23]."""
    r, model, joint, tally, marks = random.Random(seed), scheme.Scheme(Other), Joint(), {}, hostile.Marks()
    refused = collections.Counter()
    for i in range(number):
        p, sizes, key = r.choice((0, 1, 3)), (100, 20, 20, 100), r.randbytes(32)
        ids, fields = [r.randbytes(16) for _ in range(12)], compare.FIELDS
        store, ledger = bytearray(scheme.length_of(*sizes)), Ledger(p, *sizes)
        model.make(store, p, *sizes)
        store = bytes(store)
        joint.begin()

        def call(made):
            nonlocal store
            kind, wanted = type(made).__name__, ledger.call(made)
            token = model.token(made)
            answer, output, store = operate(library, model, store, kind, token, made)
            same(kind + " by the ledger", (answer, output), wanted)
            note(tally, kind, answer)
            joint.call(ledger, made, answer)
            return answer

        for field in fields:
            own = r.sample(ids, r.choice((8, 10, 11, 12)))
            call(calls.Insert(key, *field, p, r.randint(0, p), r.randbytes(12), r.randbytes(nonce_bytes(len(own))), b"".join(own)))
        for id in r.sample(ids, 2):
            call(calls.Erase(id))
            call(calls.Test(key, *r.choice(fields), id))
        for id in ids:
            call(calls.Test(key, *r.choice(fields), id))
        for n in range(1, 9):
            named = r.sample(fields, n) if r.random() < 0.7 else [r.choice(fields[:2] + [compare.NEVER]) for _ in range(n)]
            parts = [calls.Part(key, *field) for field in named]
            kept, = call(calls.JointFind(parts, bytes(16 * 12))).values
            for room in sorted({16 * kept, max(0, 16 * kept - 1), max(0, 16 * kept - 16)}):
                call(calls.JointFind(parts, r.randbytes(room)))
            tokens = model.joined_parts(parts)
            # A part of another key has no entry and tests no.
            other = model.part_token(r.randbytes(32), *r.choice(fields))
            for token in (tokens[:-128] + other, other + tokens[128:], tokens[:-32] + other[-32:]):
                operate(library, model, store, "JointFind", token, calls.JointFind([], bytes(16 * 12)))
            gone = r.choice(ids)
            broken = with_other_marks(r, store, gone)
            for token, made in ((tokens, calls.JointFind(parts, bytes(16 * 12))), (None, calls.Erase(gone)),
                                (model.mark_token(key, *named[0]), calls.Test(key, *named[0], r.choice(ids)))):
                kind = type(made).__name__
                answer, _, _ = operate(library, model, broken, kind, token, made)
                marks.call(model, broken, kind, token, made, answer)
        if i % 10 == 0:
            lent = r.randbytes(40)
            for given, on, wanted in parts_refused(store, tokens):
                same("a joint find refused", library.joint_find(on, given, lent), (-wanted, lent))
                same("and by the model", model.joint_find(bytearray(on), given, bytearray(lent)), Refused(wanted, ()))
                refused[wanted] += 1
            for id, token, wanted in ((b"", b"", 5), (ids[0][:15], bytes(32), 5), (ids[0] + b"1", bytes(32), 5), (ids[0], bytes(31), 6),
                                      (ids[0], bytes(33), 6)):
                same("a test refused", library.test(store, id, token)[0], -wanted)
                same("and by the model", model.test(store, id, token), Refused(wanted, ()))
                refused[wanted] += 1
    seldom = {kind: n for kind, n in joint.tally.items() if kind in PARTS and n < number}
    seldom.update({kind: n for kind, n in marks.too_seldom(number // 10).items() if "damage" not in kind})
    if seldom or set(refused) != {5, 6, 10, 11, 20}:
        raise Difference("not tried often enough: %s %s" % (seldom, dict(refused)))
    return "%d stores, %d calls, told %s, refused besides %s, %s, %s" % (
        number, sum(tally.values()), numbers_told(tally), dict(refused), marks, joint)


def version_one(library):
    """Stores of version 1, kept as files: every call is refused by 10, and leaves what it was lent [02:W4.5 W4.6]."""
    model, tried = scheme.Scheme(Other), 0
    field = (examples.KEY, *examples.HUE)
    for name, store in version1.stores().items():
        made = [calls.Insert(*field, store[1], 0, bytes(12), bytes(36), bytes(16)), calls.Erase(bytes(16)), calls.Find(*field, bytes(64)),
                calls.Count(*field), calls.Compact(examples.KEY, bytes(12 * 16)), calls.Order(), calls.Test(*field, bytes(16)),
                calls.JointFind([calls.Part(*field)] * 2, bytes(64)), calls.Check()]
        for call in made:
            answer, _, _ = operate(library, model, store, type(call).__name__, model.token(call), call)
            same("%s on %s" % (type(call).__name__, name), answer, Refused(10, ()))
            tried += 1
    return "%d calls on %d stores" % (tried, len(version1.stores()))


# Checks


def checks(library, number, seed):
    """Checks of stores written by hand, with their numbers, of drawn ones with every kind of fault, and of each refusal beside what
    is accepted; of a store in which an insert was repeated at an address in use [check:1 check:2 check:3 check:4 check:5 check:6
    check:7 check:8 check:14]."""
    model, met, refused = scheme.Scheme(Other), faults.Faults(), collections.Counter()

    def tried(store):
        answer, _, _ = operate(library, model, store, "Check", None, calls.Check())
        fault = faults.fault_of(store, answer)
        if fault:
            raise Difference("%s: %s" % (fault, store.hex()))
        return answer

    for title, store, numbers in faults.by_hand():
        same(title, checked(library, store), (sum(numbers), numbers))
        tried(store)
    joined, insert = faults.address_in_use(model)
    same("an older C and S", checked(library, joined), (0, faults.NONE))
    answer, _, repeated = operate(library, model, joined, "Insert", model.token(insert), insert)
    same("an insert at an address in use", answer, Done((2,)))
    same("two entries at one address", checked(library, repeated), (1, (1, 0, 0, 0, 0, 0, 0)))
    drawn = faults.Stores(seed, Other)
    for i in range(number):
        store = drawn.draw()
        met.store(store, tried(store))
        for broken, wanted in faults.refusals(store) if i % 100 == 0 and not calls.first(model.state_conditions(store)) else ():
            answer = tried(broken)
            same("refused", answer, Refused(wanted, ()) if wanted else model.check(store))
            refused[wanted] += 1
    seldom = met.too_seldom(number // 500)
    if seldom or min(refused[n] for n in (10, 11, 20)) < number // 100:
        raise Difference("not tried often enough: %s %s" % (seldom, dict(refused)))
    return "%d stores by hand, %d drawn, %s, refused besides %s; %s" % (
        2 * len(faults.MADE), number, met, dict(refused), largest_checks(library, seed))


def largest_checks(library, seed):
    """The largest tables: rows that go together; all tags alike; a tag again at the first, the last and a middle row; a row gone from
    one of two tables that go together. The numbers are by counting."""
    r, tried = random.Random(seed), 0
    tags, ids = [r.randbytes(32) for _ in range(4096)], [r.randbytes(16) for _ in range(3000)]
    ids += r.choices(ids, k=1096)
    whole = {"M": [b"\1" + tag + r.randbytes(28) for tag in tags], "V": [b"\1" + id + tag for id, tag in zip(ids, r.sample(tags, 4096))],
             "C": [b"\1" + r.randbytes(60) for _ in range(4096)], "S": [b"\1" + r.randbytes(44)] * 4096,
             "R": [b"\1" + id + r.randbytes(44) for id in ids]}

    def told(rows, wanted):
        nonlocal tried
        tried += 1
        store = faults.holding(rows, 15)
        same("a check by counting", faults.by_counting(store), wanted)
        same("a check of the largest tables", checked(library, store), (sum(wanted), wanted))

    told(whole, faults.NONE)
    told({name: [b"\1" + bytes(scheme.WIDTH[name] - 1)] * 4096 for name in whole}, (4095, 4095, 0, 0, 0, 0, 0))
    alike = {**whole, "M": [b"\1" + tags[0] + x[33:] for x in whole["M"]], "V": [x[:17] + tags[0] for x in whole["V"]]}
    told(alike, (4095, 0, 0, 0, 0, 0, 0))
    for n in (2, 8, 24):
        # Tags that begin alike, and one of V in place of another.
        begin = {**whole, "M": [b"\1" + tags[0][:n] + x[1 + n:] for x in whole["M"]],
                 "V": [x[:17] + tags[0][:n] + x[17 + n:] for x in whole["V"]]}
        told(begin, faults.NONE)
        for at in (0, 2047, 4095):
            other = sorted(begin["M"])[at][1:32] + bytes([sorted(begin["M"])[at][32] ^ 1])
            told({**begin, "V": begin["V"][:9] + [begin["V"][9][:17] + other] + begin["V"][10:]}, (0, 0, 1, 1, 0, 0, 0))
    told({**whole, "V": alike["V"]}, (0, 0, 0, 4095, 0, 0, 0))
    told({**whole, "M": alike["M"]}, (4095, 0, 4095, 0, 0, 0, 0))
    told({**whole, "M": []}, (0, 0, 4096, 0, 0, 0, 0))
    told({**whole, "V": []}, (0, 0, 0, 4096, 0, 4096, 4096))
    told({**whole, "R": []}, (0, 0, 0, 0, 4096, 0, 0))
    for name, at, number in (("M", 33, 0), ("C", 33, 1)):
        rows = sorted(whole[name])
        for i in (0, 1, 2047, 4094, 4095):
            # The row at i takes the tag of its neighbour, which may leave a row of V and one of M without their like.
            near = rows[i - 1 if i else 1]
            changed = {**whole, name: rows[:i] + [near[:at] + rows[i][at:]] + rows[i + 1:]}
            told(changed, (1, 0, 1, 0, 0, 0, 0) if name == "M" else (0, 1, 0, 0, 0, 0, 0))
            last = near[:at - 1] + bytes([near[at - 1] ^ 1]) + rows[i][at:]
            told({**whole, name: rows[:i] + [last] + rows[i + 1:]}, (0, 0, 1, 1, 0, 0, 0) if name == "M" else faults.NONE)
    once = {id for id, n in collections.Counter(ids).items() if n == 1}
    for name in "MVR":
        rows = sorted(whole[name])
        for i in (0, 2047, 4095):
            alone = rows[i][1:17] in once
            gone = {**whole, name: rows[:i] + rows[i + 1:]}
            told(gone, {"M": (0, 0, 1, 0, 0, 0, 0), "V": (0, 0, 0, 1, 0, int(alone), 1), "R": (0, 0, 0, 0, int(alone), 0, 0)}[name])
    return "%d of the largest tables" % tried


def checks_made(library):
    """How often a check was done and refused, in all parts."""
    made = library.checks
    seldom = {told: made[told] for told in ("all 0", "not all 0", 10, 11, 20) if made[told] < 50}
    if seldom:
        raise Difference("not checked often enough: %s" % seldom)
    return ", ".join("%s %d" % (told, n) for told, n in sorted(made.items(), key=str))


def main():
    options = argparse.ArgumentParser(description=__doc__.split("\n")[0])
    options.add_argument("library")
    options.add_argument("--lists", type=int, default=2000)
    options.add_argument("--hostile", type=int, default=20000)
    options.add_argument("--seed", type=int, default=1)
    options.add_argument("--long", action="store_true", help="ten times as many lists and stores")
    options.add_argument("--half", type=int, choices=[1, 2], help="one half of the parts alone")
    given = options.parse_args()
    many = 10 if given.long else 1
    library = Library(pathlib.Path(given.library).resolve())
    if not Other.libcrypto:
        left_out("E of another implementation than the model's", "there is no libcrypto.so.3")
    text = bytes(range(200))
    if Other.E(KEY, bytes(12), text) != Real.E(KEY, bytes(12), text):
        print("archive.py: two implementations of the cipher differ")
        return 1
    halves = [[("hash, F and E", lambda: primitives(library, random.Random(given.seed))),
               ("published vectors", lambda: published(library)),
               ("the largest store", lambda: large(library, given.seed)),
               ("ids with many entries", lambda: repeated(library, given.seed)),
               ("first and last rows of the largest tables", lambda: last_and_first(library, given.seed)),
               ("searches", lambda: searches(library, many * 400, given.seed)),
               ("rows that a count looks at", lambda: rows_looked_at(library, many * 2000, given.seed)),
               ("joint finds", lambda: joint_finds(library, many * given.lists // 20, given.seed)),
               ("checks", lambda: checks(library, many * 3 * given.lists, given.seed)),
               ("stores of version 1", lambda: version_one(library)),
               ("rows in any place", lambda: any_place(library, many * given.lists // 4, given.seed)),
               ("two histories", lambda: two_histories(library, many * given.lists // 4, given.seed)),
               ("lists", lambda: lists(library, many * given.lists, given.seed))],
              [("hostile stores", lambda: hostile_stores(library, many * given.hostile, given.seed)),
               ("counts past the rows", lambda: long_walks(library, many * 40, given.seed))]]
    parts = [part for half in ([halves[given.half - 1]] if given.half else halves) for part in half]
    parts += [("counts, by both functions", lambda: counts_made(library)),
              ("checks, in all parts", lambda: checks_made(library))]
    for name, part in parts:
        began = time.time()
        try:
            print("%s: alike, %s, %.1f s" % (name, part(), time.time() - began), flush=True)
        except Difference as difference:
            print("DIFFERENCE in %s: %s" % (name, difference))
            return 1
    return 0


if __name__ == "__main__":
    sys.exit(main())
