"""The records and lines of the program crates/scenario: document 01's worked list G1 to G8, then
every refusal at both sides of its limit, damage, forged and hostile stores, ids with several entries, tables in form and
out of it, the rows that a count looks at, tests and joint finds, checks, stores of version 1. The lines come from the model of this
folder, which was written from the papers, and never from our own program.

  scenario.py            compares crates/scenario/stdin and stdout with what is derived here
  scenario.py --write    writes them

After every seventh call comes a check [check:1 check:10]. After each call the line has the start of the store's hash, so the bytes of every row are
compared too: a table's rows fix them [02:W2.5].

A record is its kind, one byte, then numbers of 4 bytes and byte strings, as crates/records reads them, mostly in the order of
the call's arguments. The records of tests and joint finds:
  TEST               key, name, value, id
  JOINT_FIND         a number n, n numbers, the text, the output: the text has the parts' keys, names and values one after
                     another, and the n numbers are where each of these ends in it, three to a part; up to 32 numbers,
                     2,048 bytes of text and 1,100 of output
  BY_MARK_TOKEN      RL, id
  BY_PARTS           the parts, up to 1,200 bytes, and the output
  MAKE_MARK_TOKEN    key, name, value
  MAKE_PART_TOKEN    key, name, value
A test's line is that of an erase, a joint find's that of a find. An insert's nonces are up to 1,600 bytes. An order and a check
take nothing but the store; the line of a check has its seven numbers.
"""
import hashlib
import pathlib
import random
import sys

import compare
import examples
import faults
import form
import looked
import placing
import scheme
import version1
from calls import Check, Compact, Count, Done, Erase, Find, Insert, JointFind, Order, Part, Refused, Test, compared, nonce_bytes
from examples import GREATEST, HUE, KEY, NONCE, SIZE, id_of
from primitives import Real

TESTS = pathlib.Path(__file__).resolve().parent.parent
sys.path.append(str(TESTS))
from derived import settle  # noqa: E402, stands one folder up

PROGRAM = TESTS.parent / "crates" / "scenario"
(TITLE, MAKE, SET, RESIZE, INSERT, ERASE, FIND, COUNT, COMPACT, BY_INSERT_TOKEN, BY_FIND_TOKEN,
 BY_COUNT_TOKEN, BY_COMPACT_TOKEN, MAKE_INSERT_TOKEN, MAKE_FIND_TOKEN, MAKE_COUNT_TOKEN,
 MAKE_COMPACT_TOKEN, TAGS, HASH, ORDER, TEST, JOINT_FIND, BY_MARK_TOKEN, BY_PARTS, MAKE_MARK_TOKEN,
 MAKE_PART_TOKEN, CHECK) = range(27)
LENT = 165
EACH = 7
GREATEST_STORE = scheme.length_of(4096, 4096, 4096, 4096)
ROOM = GREATEST_STORE + 16


def number(n):
    return n.to_bytes(4, "big")


def string(content):
    return b"\0" + number(len(content)) + content


def different(n):
    """The bytes of n different ids."""
    return b"".join(bytes([i]) * 8 + bytes(range(i, i + 8)) for i in range(n))


def shown(answer):
    if isinstance(answer, Done):
        return " ".join(["done"] + [str(v) for v in answer.values])
    carried = " ".join(str(v) for v in answer.carried)
    return "refused %d" % answer.number + (" carrying " + carried if carried else "")


class Scenario:
    """Records and lines, with the model's store beside them."""

    def __init__(self):
        self.model = scheme.Scheme(Real)
        self.buffer = bytearray(ROOM)
        self.length = 0
        self.records, self.lines = [], []
        self.calls, self.checks = 0, 0

    @property
    def store(self):
        return self.buffer[:self.length]

    def record(self, kind, *parts):
        self.records.append(bytes([kind]) + b"".join(
            number(x) if isinstance(x, int) else string(bytes(x)) for x in parts))

    def title(self, text):
        self.record(TITLE, text.encode())
        self.lines.append(text)

    def tell(self, text):
        self.lines[-1] += ": " + text + "\n"

    def told(self, answer, output=None):
        store = self.store
        digest = hashlib.sha256(store).hexdigest()[:8] if len(store) <= 65536 else "long"
        tail = "" if output is None else "; output " + bytes(output).hex()
        self.tell("%s; store %s%s" % (shown(answer), digest, tail))
        self.calls += 1
        if self.calls % EACH == 0:
            self.check("check after call %d" % self.calls)
        return answer

    def change(self, act):
        """Lets the model change the store."""
        store = self.store
        answer = act(store)
        self.buffer[:self.length] = store
        return answer

    # What the program can be asked

    def make(self, title, p, *sizes, length=None):
        self.length = scheme.length_of(*sizes) if length is None else length
        self.title(title)
        self.record(MAKE, p, *sizes, self.length)
        return self.told(self.change(lambda store: self.model.make(store, p, *sizes)))

    def set(self, at, content):
        self.record(SET, at, content)
        self.buffer[at:at + len(content)] = content

    def resize(self, length):
        self.record(RESIZE, length)
        self.length = length

    def call(self, title, call):
        self.title(title)
        if isinstance(call, Insert):
            self.record(INSERT, call.key, call.name, call.value, call.p, call.u, call.nonce,
                        call.ids, call.nonces)
        elif isinstance(call, Erase):
            self.record(ERASE, call.id)
        elif isinstance(call, Find):
            self.record(FIND, call.key, call.name, call.value, call.output)
        elif isinstance(call, Count):
            self.record(COUNT, call.key, call.name, call.value)
        elif isinstance(call, (Order, Check)):
            self.record(ORDER if isinstance(call, Order) else CHECK)
        elif isinstance(call, Test):
            self.record(TEST, *call)
        elif isinstance(call, JointFind):
            fields = [field for part in call.parts for field in part]
            ends = [len(b"".join(fields[:i + 1])) for i in range(len(fields))]
            assert len(ends) <= 32 and (not ends or ends[-1] <= 2048) and len(call.output) <= 1100
            self.record(JOINT_FIND, len(ends), *ends, b"".join(fields), call.output)
        else:
            self.record(COMPACT, call.key, call.nonces)
        answer, output = self.change(lambda store: self.model.call(store, call))
        return self.told(answer, output)

    def insert(self, title, token, ids, nonces):
        self.title(title)
        self.record(BY_INSERT_TOKEN, token, ids, nonces)
        return self.told(self.change(
            lambda store: self.model.insert(store, token, nonces, ids)))

    def find(self, title, token, output):
        self.title(title)
        self.record(BY_FIND_TOKEN, token, output)
        output = bytearray(output)
        return self.told(self.model.find(self.store, token, output), output)

    def count(self, title, token):
        self.title(title)
        self.record(BY_COUNT_TOKEN, token)
        return self.told(self.model.count(self.store, token))

    def test(self, title, token, id):
        self.title(title)
        self.record(BY_MARK_TOKEN, token, id)
        return self.told(self.model.test(self.store, id, token))

    def joint_find(self, title, parts, output):
        self.title(title)
        assert len(parts) <= 1200 and len(output) <= 1100
        self.record(BY_PARTS, parts, output)
        output = bytearray(output)
        return self.told(self.model.joint_find(self.store, parts, output), output)

    def check(self, title):
        self.checks += 1
        return self.call(title, Check())

    def compact(self, title, token, nonces):
        self.title(title)
        self.record(BY_COMPACT_TOKEN, token, nonces)
        return self.told(self.change(
            lambda store: self.model.compact(store, token, nonces)))

    def making(self, title, kind, *arguments):
        """The making of a token: its bytes, or the refusal and the array as lent."""
        self.title(title)
        self.record(kind, *arguments)
        make, length = {
            MAKE_INSERT_TOKEN: (self.model.insert_token, 173),
            MAKE_FIND_TOKEN: (self.model.find_token, 96),
            MAKE_COUNT_TOKEN: (self.model.count_token, 32),
            MAKE_COMPACT_TOKEN: (self.model.compact_token, 32),
            MAKE_MARK_TOKEN: (self.model.mark_token, 32),
            MAKE_PART_TOKEN: (self.model.part_token, 128)}[kind]
        token = make(*arguments)
        answer = Done(()) if isinstance(token, bytes) else token
        shown_token = token if isinstance(token, bytes) else bytes([LENT]) * length
        self.tell("%s; bytes %s" % (shown(answer), shown_token.hex()))
        return token

    def hash(self, title, length):
        content = bytes(length)
        self.title(title)
        self.record(HASH, content)
        digest = hashlib.sha256(content).digest() if length <= 65536 else bytes([LENT] * 32)
        self.tell("%s; bytes %s" % ("done" if length <= 65536 else "refused 9", digest.hex()))

    def tags(self, title, key, p, fields, calls):
        """The premise's tags of M and of C for a list of so many calls."""
        self.title(title)
        pairs = [(name, value, u) for name, value in fields for u in range(p + 1)]
        assert len(pairs) == 4 and calls <= 32
        self.record(TAGS, key, calls, *(x for pair in pairs for x in pair))
        m, c = [], []
        for name, value, u in pairs:
            mt = self.model.F(self.model.address_key(key, name, value), scheme.number(u))
            cl = self.model.F(self.model.counter_key(key, name, value), scheme.number(u))
            m += [self.model.entry_tag(mt, a) for a in range(1, 64 * calls + 1)]
            c += [tag(cl, n) for tag in (self.model.counter_tag, self.model.anchor_tag)
                  for n in range(1, calls + 2)]
        assert len(set(m)) == len(m) and len(set(c)) == len(c)
        self.tell("%d tags of M differ, %d tags of C differ" % (len(m), len(c)))

    # Rows written by hand

    def table(self, name):
        return scheme.tables(self.store)[name]

    def set_row(self, name, i, content):
        t = self.table(name)
        self.set(t.start + t.width * i, content)

    def becomes(self, store):
        """These are the store's bytes from now on; what differs is set, some 4,000 bytes at a time."""
        assert len(store) == self.length
        for at in range(0, self.length, 4000):
            old, new = self.store[at:at + 4000], store[at:at + 4000]
            differs = [i for i, (x, y) in enumerate(zip(old, new)) if x != y]
            if differs:
                self.set(at + differs[0], bytes(new[differs[0]:differs[-1] + 1]))

    def put(self, name, *rows):
        """Rows of a table, among the others in byte order."""
        store = self.store
        self.model.put(store, name, *rows)
        self.becomes(store)

    def table_is(self, name, rows):
        """The rows of a table from its first on, in form or not; the others are zeros."""
        t = self.table(name)
        store = self.store
        store[t.start:t.start + t.width * t.rows] = b"".join(rows).ljust(t.width * t.rows, b"\0")
        self.becomes(store)

    def damage(self, cl, position):
        """The counter's first number is another."""
        c = self.table("C")
        i = scheme.lookup(self.store, c, self.model.counter_tag(cl, position))
        at = c.start + c.width * i + 52
        self.set(at, bytes([self.store[at] ^ 1]))

    def forge(self, kind, n, one, two, field=HUE, u=0, nonce=NONCE):
        """A row of C as a counter or an anchor with any numbers."""
        cl = self.cl(field, u)
        tag = self.model.counter_tag(cl, n) if kind == "counter" else self.model.anchor_tag(cl, n)
        self.put("C", self.model.c_row(cl, tag, nonce, one, two))

    def cl(self, field=HUE, u=0):
        return self.model.F(self.model.counter_key(KEY, *field), scheme.number(u))

    def log(self, field=HUE, u=0, nonce=NONCE):
        """A row of S with the CL of a field."""
        ks = self.model.compact_token(KEY)
        self.put("S", b"\1" + nonce + self.model.E(ks, nonce, self.cl(field, u)))

    def insert_token(self, field=HUE, u=0, p=1):
        return self.model.insert_token(KEY, *field, p, u, NONCE)

    def parts(self, *fields):
        """The parts of a joint find of these fields."""
        return b"".join(self.model.part_token(KEY, *field) for field in fields)

    def label(self, field, id, nonce=NONCE, mark=None):
        """A row of R: with the R mark of a field, or with another."""
        rl = self.model.mark_token(KEY, *field)
        self.put("R", b"\1" + id + nonce + (mark or self.model.r_mark(rl, nonce, id)))


def joint(fields, room):
    return JointFind([Part(KEY, *field) for field in fields], bytes([LENT]) * room)


def listed(s, title, p, sizes, calls):
    """A list of calls with what each tells, on a fresh store."""
    s.make(title, p, *sizes)
    for name, call, wanted in calls:
        answer = s.call("%s %s" % (name, type(call).__name__.lower()), call)
        assert compared(call, answer) == wanted[0], name
    assert s.check("%s check" % name) == Done(faults.NONE), name


def worked(s):
    """G1 to G8 [01:DY1 DY2 DY3 DY4 DY5 DY6 DY7 DY8 DY9 DY11] [02:W4.31], each call with its token made first
    [01:LG16 LG20], answers and rows by the paper [01:SC1 SC4 OP3 OP8 OP13 OP14 FM14 FM15], one KS
    for both compactions [01:KT11]; then the premise's tags for that list [01:LG13]."""
    calls = examples.worked()
    listed(s, "a store, p = 1, m = c = s = r = 4", 1, (4, 4, 4, 4), calls)
    s.tags("the premise for this list", KEY, 1, [HUE, SIZE], len(calls))


def token_makings(s):
    """1 to 4 [01:RI2 RI3 RI4 RI5], the lengths of fields [01:LB1] and of labels [01:LB3 LB4 LB5 LB6
    LB7 LB8], the tokens' bytes [01:KT1 KT4 KT6 KT7 KT8 KT9 KT10] [02:W4.4 W4.9 W4.16 W4.18]."""
    of_fields = (MAKE_FIND_TOKEN, MAKE_COUNT_TOKEN, MAKE_MARK_TOKEN, MAKE_PART_TOKEN)
    for n in (0, 31, 33):
        s.making("key of %d bytes" % n, MAKE_INSERT_TOKEN, bytes(n), b"a", b"", 0, 0, NONCE)
        for kind in of_fields:
            s.making("key of %d bytes" % n, kind, bytes(n), b"a", b"")
        s.making("key of %d bytes" % n, MAKE_COMPACT_TOKEN, bytes(n))
    s.making("compaction token", MAKE_COMPACT_TOKEN, KEY)
    for name, value in ((0, 0), (1, 0), (127, 1), (128, 1), (255, 1024), (256, 0), (1, 1025)):
        field = (b"a" * name, b"v" * value)
        title = "name of %d, value of %d bytes" % (name, value)
        s.making(title, MAKE_INSERT_TOKEN, KEY, *field, 0, 0, NONCE)
        for kind in of_fields:
            s.making(title, kind, KEY, *field)
    for kind in (MAKE_FIND_TOKEN, MAKE_PART_TOKEN):
        for name, value in ((b"ab", b"c"), (b"a", b"bc")):
            s.making("L2 and L3", kind, KEY, name, value)
        s.making("1 before 2", kind, b"", b"", b"")
    for p, u in ((15, 15), (15, 16), (16, 0), (0, 1), (3, 3), (257, 0), (256, 256)):
        s.making("p = %d, u = %d" % (p, u), MAKE_INSERT_TOKEN, KEY, *HUE, p, u, NONCE)
    for n in (0, 11, 13, 24):
        s.making("nonce of %d bytes" % n, MAKE_INSERT_TOKEN, KEY, *HUE, 1, 0, bytes(n))
    s.making("1 before 2, 3 and 4", MAKE_INSERT_TOKEN, b"", b"", b"", 16, 0, b"")
    s.making("2 before 3 and 4", MAKE_INSERT_TOKEN, KEY, b"", b"", 16, 0, b"")
    s.making("3 before 4", MAKE_INSERT_TOKEN, KEY, *HUE, 16, 0, b"")


def makings(s):
    """7 and 8 [01:RI8 RI9] [02:W4.2], the header and the length [01:ST1 ST2 ST3 ST4] [02:W4.5 W4.7 W4.8]; 9 of the hash
    [01:RI10]."""
    for p, *sizes in ((16, 1, 1, 1, 1), (257, 1, 1, 1, 1), (0, 0, 1, 1, 1), (0, 1, 0, 1, 1), (0, 1, 1, 0, 1), (0, 1, 1, 1, 0),
                      (0, 4097, 1, 1, 1), (0, 1, 4097, 1, 1), (0, 1, 1, 4097, 1), (0, 1, 1, 1, 4097), (0, 65537, 1, 1, 1),
                      (0, 1, 1, 1, 65537)):
        s.make("p, m, c, s, r = %d, %d, %d, %d, %d" % (p, *sizes), p, *sizes, length=287)
    s.make("no row of R, and its length", 0, 1, 1, 1, 0)
    for length in (0, 224, 226, 286, 288):
        s.make("length %d for 287" % length, 0, 1, 1, 1, 1, length=length)
    s.make("the least", 0, 1, 1, 1, 1)
    s.make("p = 15", 15, 1, 1, 1, 1)
    s.make("each its own", 3, 1, 2, 3, 260)
    greatest = (4096,) * 4
    s.make("the greatest, one byte short", 15, *greatest, length=GREATEST_STORE - 1)
    s.make("the greatest", 15, *greatest)
    s.call("count in it", Count(KEY, *HUE))
    s.call("insert of 64 ids into it",
           Insert(KEY, *HUE, 15, 3, NONCE, bytes(nonce_bytes(64)), different(64)))
    s.call("compaction of it", Compact(KEY, NONCE))
    s.call("find in it", Find(KEY, *HUE, bytes(1024)))
    s.call("test in it", Test(KEY, *HUE, different(64)[-16:]))
    s.call("joint find in it", joint([HUE] * 8, 1024))
    s.hash("hash of 65,536 bytes", 65536)
    s.hash("hash of 65,537 bytes", 65537)


def call_inputs(s):
    """1 to 6 of the calls themselves, before the store is looked at [01:RI1 RI5 RI6 RI7 ST7 RS12] [02:W4.9 W4.11 W4.15 W4.16
    W4.18 W4.24 W4.25]."""
    for good in (False, True):
        s.make("a store", 1, 64, 4, 4, 64)
        if not good:
            s.set(0, b"\3")
        token, ids = s.insert_token(), id_of("A")
        for n, j in ((0, 0), (12, 0), (12, 16), (24, 16), (35, 16), (37, 16), (48, 16), (60, 16), (36, 15), (12, 15), (36, 17), (60, 31)):
            s.insert("%d nonce bytes, %d id bytes" % (n, j), token, bytes(j), bytes(n))
        s.insert("65 ids", token, bytes(16 * 65), bytes(nonce_bytes(65)))
        for n in (0, 141, 172, 174):
            s.insert("insert token of %d bytes" % n, (token + bytes(1))[:n], ids, bytes(36))
        for n in (0, 15, 17, 32):
            s.call("erase of %d bytes" % n, Erase(bytes(n)))
            s.call("test of %d bytes" % n, Test(KEY, *HUE, bytes(n)))
            s.test("5 before 6", b"", bytes(n))
        for n in (0, 95, 97):
            s.find("find token of %d bytes" % n, bytes(n), b"out")
        for n in (0, 31, 33):
            s.count("count token of %d bytes" % n, bytes(n))
            s.compact("compaction token of %d bytes" % n, bytes(n), bytes(12))
            s.test("RL of %d bytes" % n, bytes(n), ids)
        for n in (0, 1, 96, 127, 129, 255, 1023, 1025, 1152):
            s.joint_find("parts of %d bytes" % n, bytes(n), b"out")
        for n in (11, 13):
            s.compact("%d nonce bytes" % n, bytes(31), bytes(n))
        s.call("a key of 31 bytes", Insert(bytes(31), *HUE, 1, 0, NONCE, bytes(36), ids))
        s.call("a key of 33 bytes", Find(bytes(33), *HUE, b"out"))
        s.call("a name of 256 bytes", Count(KEY, bytes(256), b""))
        s.call("a key of no bytes", Compact(b"", NONCE))
        s.call("a key of 31 bytes", Test(bytes(31), *HUE, b""))
        s.call("no name", Test(KEY, b"", b"", ids))
        part, short, long = Part(KEY, *HUE), Part(KEY[:31], *HUE), Part(KEY, b"a", bytes(1025))
        for title, parts in (("no part", []), ("9 parts", [part] * 9), ("10 parts", [part] * 10),
                             ("10 parts, the last by another key", [part] * 9 + [short]),
                             ("10 parts, the first by another key", [short] + [part] * 9), ("a key of 31 bytes", [part, short]),
                             ("1, then 2", [part, short, long]), ("2, then 1", [long, part, short]),
                             ("a name of 256 bytes", [Part(KEY, bytes(256), b"")])):
            s.call(title, JointFind(parts, b"out"))
        s.insert("one id", token, ids, bytes(36))
        s.insert("62 ids", s.insert_token(SIZE), different(62), bytes(nonce_bytes(62)))
        for n in (1, 2, 8):
            s.joint_find("%d parts" % n, s.parts(*[HUE, SIZE] * 4)[:128 * n], bytes(48))
    s.make("a store", 1, 64, 4, 4, 64)
    s.insert("64 ids", token, different(64), bytes(nonce_bytes(64)))
    s.find("them", s.model.find_token(KEY, *HUE), bytes(1024))


def each(s, title):
    """The nine operations with right arguments; the last puts the store in form [02:W2.6]."""
    s.check(title + ", check")
    s.insert(title + ", insert", s.insert_token(), id_of("A"), bytes(36))
    s.call(title + ", erase", Erase(id_of("Z")))
    s.find(title + ", find", s.model.find_token(KEY, *HUE), bytes([LENT]) * 40)
    s.count(title + ", count", s.model.count_token(KEY, *HUE))
    s.test(title + ", test", s.model.mark_token(KEY, *HUE), id_of("A"))
    s.joint_find(title + ", joint find", s.parts(HUE, SIZE), bytes([LENT]) * 40)
    s.compact(title + ", compaction", s.model.compact_token(KEY), bytes(48))
    return s.call(title + ", order", Order())


def states(s):
    """10, 11, 12 [01:RS2 RS3 RS4] [02:W4.6], 10 before 11 before 12 [01:RS1]; an order has no other than 10 and 11 [02:W2.9]."""
    for at, byte in ((0, 0), (0, 1), (0, 3), (1, 16), (2, 17), (3, 0), (3, 5), (4, 17), (5, 0), (6, 17), (7, 0), (8, 17), (9, 0), (9, 5)):
        s.make("a store", 1, 4, 4, 4, 4)
        s.set(10, b"\2")
        s.set(at, bytes([byte]))
        each(s, "byte %d of the header is %d" % (at, byte))
    for rows in (0, 4097):
        s.make("a store", 1, 4, 4, 4, 4)
        s.set(8, rows.to_bytes(2, "big"))
        s.resize(scheme.length_of(4, 4, 4, rows))
        each(s, "r = %d, and its length" % rows)
    for length in (0, 7, 8, 9, 10, 872, 1117, 1119):
        s.make("a store", 1, 4, 4, 4, 4)
        s.resize(length)
        each(s, "length %d" % length)
    for name in scheme.WIDTH:
        for row, mark in ((0, 2), (3, 255)):
            s.make("a store", 1, 4, 4, 4, 4)
            s.set_row(name, row, bytes([mark]))
            each(s, "mark %d in %s" % (mark, name))
            s.insert("11 before 12", s.insert_token(p=0), id_of("A"), bytes(36))
    s.make("a store", 1, 4, 4, 4, 4)
    s.insert("p = 0 in the token", s.insert_token(p=0), id_of("A"), bytes(36))
    s.insert("p = 2 in the token", s.insert_token(p=2), id_of("A"), bytes(36))
    s.forge("counter", 1, 1, 1)
    s.insert("12 before 13", s.insert_token(p=0), id_of("A"), bytes(36))


def version_one(s):
    """Stores of version 1, kept as files: every call is refused by 10 [02:W4.5 W4.6]."""
    for name, store in version1.stores().items():
        s.make("a store", 1, 4, 4, 4, 4)
        s.resize(len(store))
        s.becomes(store)
        assert each(s, name) == Refused(10, ()), name
        s.insert(name + ", an insert token of version 1", s.insert_token(p=store[1])[:141], id_of("A"), bytes(24))


def damage(s):
    """13 under its condition and no other [01:RS6 RS12]; only anchor B and counter Start+k count
    [01:RC2 RC5 RC6 RC7 SC3 FM8]."""
    for rows in ([("counter", 1, 1, 1)], [("counter", 1, 0, GREATEST + 1)],
                 [("anchor", 1, GREATEST + 1, 0)], [("anchor", 1, 0, GREATEST + 1)],
                 [("anchor", 1, 3, GREATEST + 1), ("counter", 4, 0, 1)],
                 [("anchor", 1, 2 ** 64 - 1, 1)], [("anchor", 1, 2 ** 64 - 2, 1), ("anchor", 2, 2 ** 63, 1)],
                 [("counter", 1, 0, 1), ("counter", 2, 2 ** 63, 1)]):
        s.make("a store", 1, 4, 4, 4, 4)
        for one in rows:
            s.forge(*one)
        each(s, "damage " + " ".join("%s %d %d %d" % r for r in rows))
        s.log()
        s.compact("its CL in S", s.model.compact_token(KEY), bytes(12))
    for rows in ([("counter", 1, 7, 9), ("counter", 2, 0, 2)],
                 [("anchor", 1, 2 ** 40, 2 ** 40), ("anchor", 2, 5, 3)],
                 [("anchor", 1, 2, 3), ("counter", 1, 9, 9), ("counter", 3, 0, 4)],
                 [("anchor", 2, 2 ** 40, 1), ("counter", 2, 1, 1)],
                 [("anchor", 1, GREATEST, 7)], [("anchor", 1, 0, 7), ("counter", 2, 0, 8)]):
        s.make("a store", 1, 4, 4, 4, 4)
        for one in rows:
            s.forge(*one)
        each(s, "no damage " + " ".join("%s %d %d %d" % r for r in rows))
    s.make("a store", 1, 4, 4, 4, 4)
    s.forge("counter", 1, 5, 5, u=1)
    each(s, "damage in share 1")
    # Damage in any part [02:W4.22].
    for u in (0, 1):
        s.make("a store", 1, 4, 4, 4, 4)
        s.call("insert A", examples.insert(HUE, 0, "A"))
        s.forge("counter", 1, 5, 5, SIZE, u)
        for title, fields in (("the first", (SIZE, HUE)), ("the last", (HUE, SIZE)), ("none", (HUE, HUE)),
                              ("the last of 8", (HUE,) * 7 + (SIZE,))):
            s.joint_find("damage in %s, share %d" % (title, u), s.parts(*fields), bytes(32))


def limits(s):
    """14 to 17, 21 and their order [01:RS7 RS8 RS9 RS10] [02:W4.28 W4.30]; 18 [01:RS11]; 19 before 13 [01:RS5]."""
    token = s.insert_token()

    def insert(title, n=1, first=65):
        return s.insert(title, token, b"".join(bytes([first + i]) * 16 for i in range(n)), bytes(nonce_bytes(n)))

    for count, title in ((GREATEST, "14"), (GREATEST - 1, "14 and 15"), (GREATEST - 2, "15 and 16")):
        s.make("a store", 1, 1, 1, 1, 1)
        s.forge("anchor", 1, 1, count)
        insert("count %d, one id" % count)
        insert("count %d, two ids" % count, 2)
    s.make("a store", 1, 4, 4, 4, 4)
    s.forge("anchor", 1, 1, GREATEST - 1)
    insert("to the greatest count")
    insert("one more")
    s.count("the greatest count", s.model.count_token(KEY, *HUE))
    for table in "MVR":
        s.make("a store", 1, 4, 4, 4, 4)
        for i in range(3):
            s.set_row(table, i, b"\1")
        insert("two ids, one free row in " + table, 2)
        insert("one id, one free row in " + table)
        insert("one id, none free in " + table)
    s.make("a store", 1, 1, 1, 1, 1)
    s.forge("anchor", 1, 1, 1)
    s.set_row("S", 0, b"\1")
    insert("15 before 16 and 17", 2)
    insert("16 before 17")
    s.make("a store", 1, 1, 2, 1, 1)
    s.forge("anchor", 1, 1, 1)
    s.set_row("S", 0, b"\1")
    s.set_row("R", 0, b"\1")
    insert("17 before 21")
    s.make("a store", 1, 1, 2, 1, 1)
    s.forge("anchor", 1, 1, 1)
    s.set_row("R", 0, b"\1")
    insert("21")
    s.make("a store", 1, 4, 4, 4, 4)
    insert("two ids", 2)
    s.call("erase of one", Erase(b"A" * 16))
    for room in (0, 15, 16, 17, 31, 32, 33):
        s.find("one id at two addresses, room %d" % room, s.model.find_token(KEY, *HUE), bytes([LENT]) * room)
    insert("two more", 2, first=67)
    for room in (31, 47, 48, 63, 64, 65):
        s.find("three ids at four addresses, room %d" % room, s.model.find_token(KEY, *HUE), bytes([LENT]) * room)
    ks = s.model.compact_token(KEY)
    whole = s.store
    s.damage(s.cl(), 2)
    s.compact("no nonces for two rows: 19 before 13", ks, b"")
    s.compact("one nonce for two rows", ks, bytes(12))
    s.compact("two nonces", ks, bytes(24))
    s.becomes(whole)
    s.compact("two nonces, no damage", ks, bytes(24))
    s.compact("nothing left, no nonces", ks, b"")


def compactions(s):
    """13 keeps what was treated [01:RS13]; k = 0 takes no nonce [01:OP2 OP11]; the freed rows are those
    held, in C and in S [01:ST10 ST12 OP12 OP13]."""
    ks, nonces = s.model.compact_token(KEY), b"1" * 12 + b"2" * 12 + b"3" * 12 + b"4" * 12
    for damaged in (1, 0):
        s.make("a store", 1, 8, 8, 8, 8)
        for field, letter in ((SIZE, "A"), (SIZE, "B"), (HUE, "C")):
            s.call("insert " + letter, examples.insert(field, 0, letter))
        # S is in byte order, and so the CL are
        order = list(dict.fromkeys(s.model.labels_of_s(s.store, ks)))
        counters = {s.cl(SIZE): 2, s.cl(HUE): 1}
        s.damage(order[damaged], counters[order[damaged]])
        s.compact("damage at CL %d of two" % damaged, ks, nonces)
        for field in (SIZE, HUE):
            s.count("what is before it is treated", s.model.count_token(KEY, *field))
        s.compact("damage at the first CL", ks, nonces)
    s.make("a store", 1, 8, 8, 8, 8)
    s.log()
    s.call("insert A", examples.insert(SIZE, 0, "A"))
    s.compact("k = 0 takes no nonce", ks, nonces)
    s.call("find", Find(KEY, *SIZE, bytes(32)))
    s.make("a store", 1, 8, 8, 8, 8)
    s.forge("anchor", 1, GREATEST, 5)
    s.forge("counter", GREATEST + 1, 0, 6)
    s.log()
    s.compact("a position above the greatest", ks, nonces)
    s.count("the next reading", s.model.count_token(KEY, *HUE))
    for copies in ((99, b"a"), (99, b"z"), (2, NONCE)):
        # the row of lowest index is the one that is read and freed, of equal ones too
        s.make("a store", 1, 8, 8, 8, 8)
        for n in (3, 1, 2):
            s.forge("counter", n, 0, n)
        s.forge("counter", 2, 0, copies[0], nonce=copies[1] * (12 // len(copies[1])))
        s.log()
        s.log(nonce=b"n" * 12)
        s.log(nonce=b"n" * 12)
        s.compact("counters in any order, one twice", ks, nonces)
        s.count("after it", s.model.count_token(KEY, *HUE))
        s.compact("again", ks, nonces)
        for i, letter in enumerate("ABC"):
            s.call("insert %s" % letter, examples.insert((HUE, SIZE)[i % 2], i % 2, letter))
        s.compact("three CL", ks, nonces)
        s.call("find", Find(KEY, *HUE, bytes(64)))


def rows(s):
    """Lookup, freeing and free rows' bytes [01:ST5 ST13 ST14 OP15]; erase by tags [01:ST8 OP4]."""
    s.make("a store", 0, 4, 4, 4, 4)
    junk = bytearray([7]) * (s.length - scheme.HEADER)
    for t in scheme.tables(s.store).values():
        for i in range(t.rows):
            junk[t.start + t.width * i - scheme.HEADER] = 0
    s.set(scheme.HEADER, junk)
    each(s, "free rows with any bytes")
    s.call("insert into it", examples.insert(HUE, 0, "AB", p=0))
    fresh = s.store
    m, v = s.table("M"), s.table("V")
    tags = {r[1:17]: r[17:] for r in scheme.used_rows(s.store, v)}
    a, b = (next(r for r in scheme.used_rows(s.store, m) if r[1:33] == tags[id_of(x)]) for x in "AB")
    for other in (a, a[:60] + bytes([a[60] ^ 1]), a[:33] + bytes(28), a[:33] + b"\xff" * 28):
        s.becomes(fresh)
        s.put("M", other)
        s.put("V", b"\1" + id_of("A") + b[1:33])
        s.call("the lowest row with the tag", Find(KEY, *HUE, bytes(48)))
        s.call("erase by two V rows", Erase(id_of("A")))
        s.call("find after it", Find(KEY, *HUE, bytes(48)))
        s.call("erase of nothing", Erase(id_of("A")))
        s.call("erase of the rest", Erase(id_of("B")))


def forms(s):
    """Every way of being out of form in each table, which is 20 [02:W2.11] after 11 and before 12, 19 and 13 [02:W2.12], and
    what is just in form [02:W2.1 W2.2 W2.3]; an order puts it in form [02:W2.6], keeps every used row [02:W2.7] and
    answers how many there are [02:W2.8]."""
    met = form.Forms()

    def with_byte(w, at, byte):
        return bytes([1] + [5] * (at - 1) + [byte] + [5] * (w - 1 - at))

    def left(w, at, byte):
        return bytes(at) + bytes([byte]) + bytes(w - 1 - at)

    def tried(title, name, rows, before=None):
        """The nine calls on a store with these rows of a table."""
        s.make("a store", 1, 4, 4, 4, 4)
        s.table_is(name, rows)
        met.store(bytes(s.store))
        good = form.in_form(s.store)
        if before:
            before()
        answer = each(s, "%s: %s" % (name, title))
        assert before or good or answer == Done((sum(r[0] == 1 for r in rows),)), title

    for name, w in scheme.WIDTH.items():
        one, zero = with_byte(w, 1, 5), bytes(w)
        for title, at, low, high in (("the byte after the mark", 1, 4, 6), ("the byte after the mark, 7f and 80", 1, 0x7F, 0x80),
                                     ("the last byte", w - 1, 4, 6), ("the last byte, 7f and 80", w - 1, 0x7F, 0x80),
                                     ("byte 8", 8, 0, 255), ("byte 7, 7f and 80", 7, 0x7F, 0x80), ("byte 33", 33, 0, 1)):
            small, great = with_byte(w, at, low), with_byte(w, at, high)
            tried(title + ", in order", name, [small, great])
            tried(title + ", exchanged", name, [great, small])
            tried(title + ", exchanged at the end of a full table", name, [small, small, great, small])
            tried(title + ", the last two exchanged", name, [small, great, small])
        tried("one row", name, [one])
        tried("equal rows", name, [one] * 2)
        tried("equal rows, a full table", name, [one] * 4)
        tried("a free row first", name, [zero, one])
        tried("a free row first, a full table else", name, [zero, one, one, one])
        tried("a free row between", name, [one, zero, one])
        tried("the last row used, the others free", name, [zero, zero, zero, one])
        tried("the last row used after a gap", name, [one, zero, zero, one])
        for at, byte in ((1, 1), (1, 0x80), (8, 1), (w - 1, 1), (w - 1, 0x80)):
            for i in (0, 1, 3):
                first = one if byte == 1 else zero
                tried("byte %d of row %d left over" % (at, i), name, [first] * i + [left(w, at, byte)])
    # Where other refusals wait.
    for name, w in scheme.WIDTH.items():
        rows = [with_byte(w, 1, 6), with_byte(w, 1, 5)]
        for other in scheme.WIDTH:
            tried("11 in %s before 20" % other, name, rows, lambda: s.set_row(other, 3, b"\2"))
        s.make("a store", 1, 4, 4, 4, 4)
        s.table_is(name, rows)
        s.insert("20 before 12", s.insert_token(p=0), id_of("A"), bytes(36))
        s.insert("20 before 15", s.insert_token(), different(5), bytes(nonce_bytes(5)))
        s.compact("20 before 19", s.model.compact_token(KEY), b"")
        s.insert("5 before 20", s.insert_token(), b"", bytes(12))
        s.call("5 before 20", Erase(b""))
        s.find("6 before 20", b"", b"")
        s.test("6 before 20", b"", id_of("A"))
        s.joint_find("6 before 20", b"", b"")
        s.compact("4 before 20", s.model.compact_token(KEY), b"1")
    s.make("a store", 1, 4, 4, 4, 4)
    s.forge("counter", 1, 1, 1)
    s.log()
    s.table_is("M", [bytes(61), with_byte(61, 1, 5)])
    each(s, "20 before 13")
    each(s, "13 after it")
    assert not met.too_seldom(1), met.too_seldom(1)


def any_place(s):
    """Stores with rows in any place: 20, then in form, and every find, count and joint find tells what it told
    [02:W2.6 W2.7 W2.8 W2.9 W2.10]. Then on."""
    pick = random.Random(2)
    for turn in range(12):
        p, sizes = pick.randrange(3), tuple(pick.randrange(4, 9) for _ in range(4))
        place = placing.lowest if turn % 2 else placing.random_place(pick)
        store, _, model = placing.filled(Real, place, p, sizes, 10, pick, junk=turn % 3 == 0)
        told = placing.readings(model, store)
        s.make("a store", p, *sizes)
        s.becomes(store)
        title = "before %d" % turn
        assert placing.out_of_form(store), title
        each(s, title)
        s.becomes(store)
        s.call(title + ", order", Order())
        assert placing.readings(s.model, s.store) == told, title
        for call in placing.reading_calls():
            room = {"output": bytes(16 * 8)} if hasattr(call, "output") else {}
            s.call("%s, %s" % (title, type(call).__name__.lower()), call._replace(**room))
        s.insert(title + ", insert", s.insert_token(p=p), id_of("A"), pick.randbytes(36))
        s.compact(title + ", compaction", s.model.compact_token(KEY), pick.randbytes(12 * 8))
        s.call(title + ", order again", Order())


def repeats(s):
    """Ids with several entries: each is found once [02:W1.1] at its first place [02:W1.2], 18 by the different ids
    [02:W1.3], count and erase by entries [02:W1.4 W1.6]."""
    token = s.model.find_token(KEY, *HUE)

    def insert(title, u, ids, p=1, field=HUE):
        return s.insert(title, s.insert_token(field, u, p), b"".join(ids), bytes(nonce_bytes(len(ids))))

    def finds(title, found, entries):
        """Room for one id less, a byte less, just enough, a byte more, a byte less than all entries take, for all."""
        for room in sorted({16 * found - 16, 16 * found - 1, 16 * found, 16 * found + 1, 16 * entries - 1, 16 * entries}):
            answer = s.find("%s, room %d" % (title, room), token, bytes([LENT]) * room)
            assert answer == (Done if 16 * found <= room else lambda n: Refused(18, n))((found,)), title

    listed(s, "a store, p = 1, m = r = 9, c = s = 6", 1, (9, 6, 6, 9), examples.repeated())
    a, b, c = (id_of(x) for x in "ABC")
    s.make("a store", 1, 20, 6, 6, 20)
    insert("five entries of two ids in a share", 0, [a, b, b, a, b])
    finds("two ids at five addresses", 2, 5)
    insert("the same insert again", 0, [a, b, b, a, b])
    finds("two ids at ten addresses", 2, 10)
    insert("another share with them", 1, [c, b, a])
    finds("three ids in two shares", 3, 13)
    insert("another field with them", 0, [b, a], field=SIZE)
    s.call("the other field", Find(KEY, *SIZE, bytes(32)))
    s.call("erase of what stood first", Erase(a))
    finds("two ids after it", 2, 8)
    insert("a new insert of the same id", 0, [a])
    finds("three ids, it comes later", 3, 9)
    insert("and of it again, in both shares", 1, [a, a])
    s.compact("compaction", s.model.compact_token(KEY), bytes(12 * 6))
    finds("three ids after it", 3, 11)
    s.count("count by entries", s.model.count_token(KEY, *HUE))
    s.call("erase by entries", Erase(b))
    s.call("erase of the other", Erase(a))
    finds("one id", 1, 1)

    near = [a] + [a[:at] + bytes([a[at] ^ bit]) + a[at + 1:] for at, bit in zip(range(16), (1, 128) * 8)]
    s.make("a store", 1, 40, 4, 4, 40)
    insert("ids that differ in one byte", 0, near)
    insert("in the other share too, backwards", 1, near[::-1])
    finds("17 ids that differ in one byte", 17, 34)

    # As many entries as the program has room to write, and more.
    many = scheme.parts(different(64), 16)
    s.make("a store", 15, 196, 20, 20, 196)
    insert("64 ids in share 3", 3, many, p=15)
    insert("four of them in share 12", 12, many[32:36], p=15)
    finds("64 ids at 68 addresses", 64, 68)
    insert("all in share 12, from another on", 12, many[40:] + many[:40], p=15)
    insert("again in share 3", 3, many[::-1], p=15)
    s.find("64 ids at 196 addresses", token, bytes([LENT]) * 1024)
    s.find("64 ids at 196 addresses, a byte short", token, bytes([LENT]) * 1023)

    s.make("a store", 15, 20, 20, 20, 20)
    for u in range(16):
        insert("one id in share %d" % u, u, [a], p=15)
    finds("one id in 16 shares", 1, 16)
    insert("another id in share 15, and it again", 15, [b, a, b], p=15)
    finds("two ids in 16 shares", 2, 19)
    s.count("count by entries", s.model.count_token(KEY, *HUE))
    s.call("erase by entries", Erase(a))
    finds("one id in one share", 1, 2)

    def entry(i, u, address, id):
        """A row of M as an entry of hue=red, the i-th."""
        mt = s.model.F(s.model.address_key(KEY, *HUE), scheme.number(u))
        me = s.model.F(s.model.entry_key(KEY, *HUE), scheme.number(u))
        nonce = bytes([i]) * 12
        s.put("M", b"\1" + s.model.entry_tag(mt, address) + nonce + s.model.E(me, nonce, id))

    s.make("a store", 0, 6, 4, 4, 6)
    s.forge("anchor", 1, 1, 9)
    for i, (address, id) in enumerate(((9, a), (2, b), (5, a), (7, b), (5, c), (10, c))):
        entry(i, 0, address, id)
    finds("forged entries, a tag twice, an address past the count", 2, 4)
    # Counts that sum to the rows of the largest table, and to one more.
    for count in (2048, 2049):
        s.make("a store", 1, 6, 4, 4, 6)
        for u, n in enumerate((2048, count)):
            s.forge("counter", 1, 0, n, u=u)
        for i, (u, address, id) in enumerate(((1, count, a), (0, 2048, c), (0, 1, b), (1, 1, c), (1, 2, b), (0, 2049, a))):
            entry(i, u, address, id)
        finds("few entries at %d addresses" % (2048 + count), 3, 5)


def looked_at(s):
    """Counts on tables C made for them: the tag below and above all rows, at the first and at the last, tags that stand twice, c
    anchors and c counters held, several shares, damage; the line tells the count and the rows looked at
    [02:W3.1 W3.2 W3.3 W3.4 W3.5 W3.6 W3.7 W3.8 W3.9 W3.11 W3.12]."""
    drawn, met = looked.Stores(3, Real), looked.Looked()

    def tried(title, store, token):
        h = scheme.header(store)
        s.make("a store", *h)
        s.becomes(store)
        answer = s.count(title, token)
        fault = met.fault(s.model, bytes(s.store), token, answer)
        assert not fault, fault

    for turn in range(240):
        tried("rows %d" % turn, *drawn.draw())
    for p, c, shape in ((0, 64, "c anchors"), (0, 64, "c counters"), (15, 16, "c counters"), (2, 200, "any")):
        tried("%d rows, %s" % (c, shape), *drawn.with_sizes(p, c, shape))
    assert not met.too_seldom(2), met.too_seldom(2)


def joint_finds(s):
    """Tests and joint finds of 1 to 8 parts: lists of calls, then stores that no list makes: rows of R that are missing, of another
    R mark, of ids that V has not [02:W4.13 W4.14 W4.17 W4.19 W4.20 W4.21 W4.22 W4.23]."""
    listed(s, "a store, p = 1, m = 8, c = s = 6, r = 7", 1, (8, 6, 6, 7), examples.jointly())
    listed(s, "a store, p = 0, m = r = 8, c = s = 4", 0, (8, 4, 4, 8), examples.least())

    # Eight fields: field i has the ids i and above of nine, in an order of its own.
    fields, ids = [(b"field", bytes([65 + i])) for i in range(8)], scheme.parts(different(9), 16)
    s.make("a store", 3, 64, 20, 20, 64)
    for i, field in enumerate(fields):
        own = ids[i:] if i % 2 else ids[:i - 1:-1] if i else ids[::-1]
        s.insert("insert of field %d" % i, s.insert_token(field, i % 4, 3), b"".join(own), bytes(range(nonce_bytes(len(own)))))
    for n in range(1, 9):
        for title, chosen in (("first", fields[:n]), ("last", fields[-n:]), ("last backwards", fields[:-n - 1:-1]),
                              ("every other", (fields[::2] + fields[1::2])[:n])):
            answer = s.joint_find("%d parts, the %s" % (n, title), s.parts(*chosen), bytes([LENT]) * 160)
            assert answer == Done((9 - max(fields.index(field) for field in chosen),)), title
    everything = s.parts(*fields)
    for room in (0, 15, 16, 31, 32, 33):
        s.joint_find("2 ids in 8 parts, room %d" % room, everything, bytes([LENT]) * room)
    for i in (0, 3, 7):
        for k in (0, 3, 8):
            answer = s.test("id %d under field %d" % (k, i), s.model.mark_token(KEY, *fields[i]), ids[k])
            assert answer == Done((int(k >= i),))
    other = b"".join(s.model.part_token(bytes(32), *field) for field in fields[:1])
    s.joint_find("a part of another key", everything[:128] + other, bytes(160))
    s.joint_find("a part never inserted, first", s.parts(examples.BLUE, *fields[:3]), bytes(160))
    s.joint_find("a part never inserted, last", s.parts(*fields[:3], examples.BLUE), bytes(160))
    mixed = s.parts(fields[1])[:96] + s.parts(fields[5])[96:]
    s.joint_find("a find token of one and RL of another field", s.parts(fields[0]) + mixed, bytes(160))
    whole = s.store
    for name in "VR":
        # Where the ids have no row of R, every part but the chosen one tests no; where V has none, an erase frees R's too.
        s.becomes(whole)
        s.table_is(name, [])
        s.joint_find("no row in %s" % name, everything, bytes(160))
        s.joint_find("no row in %s, one part" % name, everything[:128], bytes(160))
        s.test("no row in %s, test" % name, s.model.mark_token(KEY, *fields[0]), ids[8])
        answer = s.call("no row in %s, erase" % name, Erase(ids[8]))
        assert answer == Done((0 if name == "V" else 8,))
        s.test("after it", s.model.mark_token(KEY, *fields[0]), ids[8])
        s.joint_find("no row in %s, after it" % name, everything, bytes(160))
    s.becomes(whole)
    s.call("an erase of one of the two ids left", Erase(ids[8]))
    s.joint_find("one id left", everything, bytes([LENT]) * 16)
    s.compact("compaction", s.model.compact_token(KEY), bytes(12 * 20))
    s.joint_find("after a compaction", everything, bytes([LENT]) * 16)

    # R rows by hand.
    a, rl = id_of("A"), s.model.mark_token(KEY, *HUE)
    for title, rows in (("the right one", [(a, NONCE, None)]), ("over the id alone", [(a, NONCE, s.model.F(rl, a))]),
                        ("id, then nonce", [(a, NONCE, s.model.F(rl, a + NONCE))]),
                        ("of another nonce", [(a, NONCE, s.model.r_mark(rl, b"n" * 12, a))]),
                        ("of another id", [(a, NONCE, s.model.r_mark(rl, NONCE, id_of("B")))]),
                        ("in another id's row", [(id_of("B"), NONCE, s.model.r_mark(rl, NONCE, a))]),
                        ("behind others", [(a, bytes([n]) * 12, bytes([n]) * 32) for n in range(1, 6)] + [(a, b"z" * 12, None)]),
                        ("twice", [(a, NONCE, None)] * 2),
                        ("apart in its last byte", [(a, NONCE, s.model.r_mark(rl, NONCE, a)[:31] + b"?")])):
        s.make("a store", 1, 4, 4, 4, 8)
        for id, nonce, mark in rows:
            s.label(HUE, id, nonce, mark)
        s.test("R mark " + title, rl, a)
        s.test("R mark " + title + ", of B", rl, id_of("B"))
        s.call("R mark " + title + ", erase", Erase(a))
        s.test("after it", rl, a)


def checks(s):
    """Checks of stores with each kind of fault, written by hand with their numbers, of drawn ones and of lists of calls; of a store in
    which an insert was repeated at an address in use; every refusal [check:1 check:2 check:3 check:4 check:5 check:6 check:7 check:8
    check:10]."""
    met = faults.Faults()

    def tried(title, store):
        s.make("a store", 1, 1, 1, 1, 1)
        s.resize(len(store))
        s.becomes(store)
        answer = s.check(title)
        assert s.store == store and not faults.fault_of(store, answer), title
        met.store(store, answer)
        return answer

    for title, store, numbers in faults.by_hand():
        assert tried(title, store) == Done(numbers), title
    joined, call = faults.address_in_use(s.model)
    assert tried("an older C and S", joined) == Done(faults.NONE)
    assert s.call("an insert at an address in use", call) == Done((2,))
    assert s.check("two entries at one address") == Done((1, 0, 0, 0, 0, 0, 0))
    s.call("a find of it", Find(faults.KEY, *faults.FIELDS[0], bytes(48)))
    s.call("an erase of one of them", Erase(id_of("C")))
    assert s.check("after it") == Done((0, 0, 1, 0, 0, 0, 0))
    for number, store in enumerate((joined, faults.holding(dict.fromkeys(faults.ORDER, [])))):
        for at, (broken, wanted) in enumerate(faults.refusals(store)):
            assert tried("refused or not, %d %d" % (number, at), broken) == (Refused(wanted, ()) if wanted else Done(faults.NONE))
    drawn = faults.Stores(5, Real)
    for turn in range(120):
        tried("drawn %d" % turn, drawn.draw())
    assert all(met.tally["number %d alone" % (n + 1)] for n in range(7)) and all(met.tally["refused by %d" % n] for n in (10, 11, 20))
    for turn in range(6):
        lists = compare.Lists(turn, 40)
        list_of_calls(s, "list %d" % turn, lists, lists.draw())


def list_of_calls(s, title, lists, drawn):
    """A list of calls with its checks, as far as the program has room for their arguments."""
    s.make(title, lists.p, *lists.sizes)
    for at, call in enumerate(drawn):
        if len(getattr(call, "output", b"")) <= 1100:
            answer = s.call("%s, call %d" % (title, at), call)
            assert not isinstance(call, Check) or answer == Done(faults.NONE)


def hostile(s):
    """Any bytes behind a good header and good marks; mostly put in form, so that more than 20 is told."""
    pick, told = random.Random(1), set()
    for turn in range(80):
        p, *sizes = pick.randrange(3), *(pick.randrange(1, 5) for _ in range(4))
        s.make("a store", p, *sizes)
        content = bytearray(pick.randbytes(s.length - scheme.HEADER))
        for table in scheme.tables(s.store).values():
            for i in range(table.rows):
                content[table.start + table.width * i - scheme.HEADER] = pick.randrange(2)
        s.set(scheme.HEADER, content)
        in_form = turn % 4 < 3
        ids = [scheme.row(s.store, s.table("V"), 0)[1:17], id_of("A")]
        if in_form:
            store = s.store
            s.model.order(store)
            s.becomes(store)
            for _ in range(pick.randrange(len(scheme.free(s.store, s.table("C"))) + 1)):
                kind = pick.choice(["counter", "anchor"])
                one = pick.choice((0, 0, 0, 1)) if kind == "counter" else pick.randrange(3)
                s.forge(kind, pick.randrange(1, 4), one, pick.randrange(9), u=pick.randrange(p + 1))
            for _ in range(pick.randrange(len(scheme.free(s.store, s.table("S"))) + 1)):
                s.log(u=pick.randrange(p + 1), nonce=pick.randbytes(12))
            for _ in range(pick.randrange(len(scheme.free(s.store, s.table("R"))) + 1)):
                s.label(pick.choice((HUE, SIZE)), pick.choice(ids), pick.randbytes(12), pick.choice((None, None, pick.randbytes(32))))
        title = "hostile %d" % turn
        order = [lambda: s.insert(title + ", insert", s.insert_token(p=p), pick.choice(ids), pick.randbytes(36)),
                 lambda: s.call(title + ", erase", Erase(pick.choice(ids))),
                 lambda: s.find(title + ", find", s.model.find_token(KEY, *HUE), bytes(pick.choice([0, 16, 64, 256]))),
                 lambda: s.count(title + ", count", s.model.count_token(KEY, *HUE)),
                 lambda: s.test(title + ", test", s.model.mark_token(KEY, *pick.choice((HUE, SIZE))), pick.choice(ids)),
                 lambda: s.joint_find(title + ", joint find", s.parts(*(pick.choice((HUE, SIZE)) for _ in range(pick.randrange(1, 5)))),
                                      bytes(pick.choice([0, 16, 64]))),
                 lambda: s.compact(title + ", compaction", s.model.compact_token(KEY), pick.randbytes(48)),
                 lambda: s.call(title + ", order", Order())]
        s.check(title + ", check")
        pick.shuffle(order)
        for act in order:
            answer = act()
            told.add(answer.number if isinstance(answer, Refused) else "done")
    assert {"done", 13, 15, 16, 17, 18, 20, 21} <= told, told


def main():
    s = Scenario()
    for part in (worked, token_makings, makings, call_inputs, states, damage, limits, compactions, rows, repeats, forms,
                 any_place, looked_at, joint_finds, checks, version_one, hostile):
        before = len(s.records)
        part(s)
        print("%s: %d records" % (part.__name__.replace("_", " "), len(s.records) - before), flush=True)
    numbers = {n for n in range(1, 22) if any(": refused %d%s" % (n, end) in line for line in s.lines
                                              for end in (";", " "))}
    missing = set(range(1, 22)) - numbers
    if missing:
        print("scenario.py: no line has refusal %s" % sorted(missing))
        return 1
    derived = {"stdin": number(len(s.records)) + b"".join(s.records), "stdout": "".join(s.lines).encode()}
    return settle("scenario.py", __doc__, PROGRAM, derived, "the %d records and lines" % len(s.records))


if __name__ == "__main__":
    sys.exit(main())
