"""Stores for the check, which counts rows that do not go together [check:1 check:2 check:3 check:4 check:5 check:6 check:7
check:8]: some written by hand, with the seven numbers written by hand too; one in which an insert was repeated at an address
in use; drawn ones, which calls left and in which rows were then added, taken away or changed; and every refusal at both
sides of its limit. The numbers once more, by sorting and counting in place of comparing each with each, and a tally of what
the stores had, so that a test knows that each kind was tried often enough.
"""
import random
from collections import Counter

import calls
import scheme
from calls import Done, Refused
from primitives import Cheap
from scheme import Scheme, used_rows

KEY = bytes(range(32))
FIELDS = [(b"hue", b"red"), (b"size", b"L"), (b"a", b"bc")]
NONE = (0,) * 7


# Written by hand


def id_of(letter):
    return letter.encode() * 16


def tag_of(n, last=None):
    """The n-th tag, or one that differs from it in its last byte."""
    return bytes([n]) * 31 + bytes([n if last is None else last])


def m(n, rest=0, last=None):
    """A row of M, or of C, with the n-th tag."""
    return b"\1" + tag_of(n, last) + bytes([rest]) * 28


def v(letter, n, last=None):
    return b"\1" + id_of(letter) + tag_of(n, last)


def r(letter, rest=0):
    return b"\1" + id_of(letter) + bytes([rest]) * 44


def beside(row, at):
    """The same but for one byte."""
    return row[:at] + bytes([row[at] ^ 1]) + row[at + 1:]


S_ROW = b"\1" + bytes(44)
# What it is, the used rows of M, V, C, S and R, and the numbers.
MADE = [
    ("no row", [], [], [], [], [], NONE),
    ("one entry", [m(1)], [v("A", 1)], [m(9)], [S_ROW], [r("A")], NONE),
    ("three entries of two ids", [m(1), m(2), m(3)], [v("A", 1), v("A", 2), v("B", 3)], [m(8), m(9)], [S_ROW] * 2,
     [r("A", 1), r("A", 2), r("B")], NONE),
    ("entries in another order than their ids", [m(1), m(2), m(3), m(4)], [v("A", 4), v("B", 2), v("C", 3), v("D", 1)], [], [],
     [r(x) for x in "ABCD"], NONE),
    # 1: rows of M with one tag.
    ("two entries at one address", [m(1, 0), m(1, 1)], [v("A", 1), v("B", 1)], [], [], [r("A"), r("B")], (1, 0, 0, 0, 0, 0, 0)),
    ("a row of M twice", [m(1)] * 2, [v("A", 1)], [], [], [r("A")], (1, 0, 0, 0, 0, 0, 0)),
    ("a tag three times", [m(1, n) for n in range(3)], [v("A", 1)], [], [], [r("A")], (2, 0, 0, 0, 0, 0, 0)),
    ("two tags twice", [m(1), m(1), m(2), m(2)], [v("A", 1), v("A", 2)], [], [], [r("A")] * 2, (2, 0, 0, 0, 0, 0, 0)),
    ("the first two and the last two", [m(1), m(1), m(2), m(3), m(4), m(4)], [v("A", n) for n in (1, 2, 3, 4)], [], [], [r("A")] * 4,
     (2, 0, 0, 0, 0, 0, 0)),
    ("tags of M apart in the last byte", [m(1), m(1, 0, 2)], [v("A", 1), v("A", 1, 2)], [], [], [r("A")] * 2, NONE),
    ("tags of M apart in the first byte", [m(1), beside(m(1), 1)], [v("A", 1), beside(v("A", 1), 17)], [], [], [r("A")] * 2, NONE),
    # 2: rows of C with one tag.
    ("a row of C twice", [], [], [m(9)] * 2, [], [], (0, 1, 0, 0, 0, 0, 0)),
    ("a tag three times in C", [], [], [m(8), m(9, 0), m(9, 1), m(9, 2)], [], [], (0, 2, 0, 0, 0, 0, 0)),
    ("tags of C apart in the last byte", [], [], [m(9), m(9, 0, 8)], [], [], NONE),
    ("a tag in M and in C", [m(1)], [v("A", 1)], [m(1)], [], [r("A")], NONE),
    ("a row of S twice", [], [], [], [S_ROW] * 3, [], NONE),
    # 3: rows of V whose tag no row of M has.
    ("a row of V alone", [], [v("A", 1)], [], [], [r("A")], (0, 0, 1, 0, 0, 0, 0)),
    ("a tag in V and in C", [], [v("A", 1)], [m(1)], [], [r("A")], (0, 0, 1, 0, 0, 0, 0)),
    ("two rows of V with one tag", [m(2)], [v("A", 1), v("A", 2), v("B", 1)], [], [], [r("A"), r("B")], (0, 0, 2, 0, 0, 0, 0)),
    ("below and above all rows of M", [m(2)], [v("A", 1), v("A", 2), v("A", 3)], [], [], [r("A")] * 3, (0, 0, 2, 0, 0, 0, 0)),
    ("a tag of V apart in the last byte", [m(1)], [v("A", 1, 2)], [], [], [r("A")], (0, 0, 1, 1, 0, 0, 0)),
    ("a tag of V apart in the first byte", [m(1)], [beside(v("A", 1), 17)], [], [], [r("A")], (0, 0, 1, 1, 0, 0, 0)),
    # 4: rows of M whose tag no row of V has.
    ("a row of M alone", [m(1)], [], [], [], [], (0, 0, 0, 1, 0, 0, 0)),
    ("a row of M alone, twice", [m(1)] * 2, [], [], [], [], (1, 0, 0, 2, 0, 0, 0)),
    ("the first and the last row of M", [m(1), m(2), m(3)], [v("A", 2)], [], [], [r("A")], (0, 0, 0, 2, 0, 0, 0)),
    # 5: rows of V whose id no row of R has.
    ("no row of R", [m(1)], [v("A", 1)], [], [], [], (0, 0, 0, 0, 1, 0, 0)),
    ("two ids without a row of R", [m(n) for n in (1, 2, 3, 4)], [v("A", 1), v("B", 2), v("B", 3), v("C", 4)], [], [], [r("C")],
     (0, 0, 0, 0, 3, 0, 0)),
    ("an id of R apart in the last byte", [m(1)], [v("A", 1)], [], [], [beside(r("A"), 16)], (0, 0, 0, 0, 1, 1, 0)),
    ("an id of R apart in the first byte", [m(1)], [v("A", 1)], [], [], [beside(r("A"), 1)], (0, 0, 0, 0, 1, 1, 0)),
    ("one row of R for two of V", [m(1), m(2)], [v("A", 1), v("A", 2)], [], [], [r("A")], NONE),
    # 6: rows of R whose id no row of V has.
    ("another id in R", [m(1)], [v("A", 1), v("A", 1)], [], [], [r("A"), r("B")], (0, 0, 0, 0, 0, 1, 0)),
    ("two rows of another id in R", [m(1)], [v("B", 1)] * 3, [], [], [r("A", 1), r("A", 2), r("B")], (0, 0, 0, 0, 0, 2, 0)),
    ("below and above all ids of V", [m(1)], [v("B", 1)] * 3, [], [], [r(x) for x in "ABC"], (0, 0, 0, 0, 0, 2, 0)),
    # 7: more rows in R than in V.
    ("two rows of R for one of V", [m(1)], [v("A", 1)], [], [], [r("A", 1), r("A", 2)], (0, 0, 0, 0, 0, 0, 1)),
    ("rows of R alone", [], [], [], [], [r("A", 1), r("A", 2), r("B")], (0, 0, 0, 0, 0, 3, 3)),
    # What cannot be seen without a key: rows of V that name each other's entries, one entry named twice.
    ("two entries exchanged", [m(1), m(2)], [v("A", 2), v("B", 1)], [], [], [r("A"), r("B")], NONE),
    ("one entry, two rows of V", [m(1)], [v("A", 1), v("B", 1)], [], [], [r("A"), r("B")], NONE),
    # Each number its own.
    ("1 to 7", [m(1), m(1)] + [m(n) for n in (2, 3, 4, 5)], [v("A", 1), v("B", 11), v("C", 12), v("D", 13), v("E", 1), v("F", 1)],
     [m(9)] * 3, [], [r("A", n) for n in range(7)] + [r(x) for x in "GHIJKL"], (1, 2, 3, 4, 5, 6, 7)),
]
ORDER = "MVCSR"


def holding(rows, p=0, spare=(0, 0, 0, 0)):
    """A store with these used rows, by table, in form, and so many more rows than they need (of M and V, C, S, R)."""
    most = [max(len(rows["M"]), len(rows["V"]))] + [len(rows[name]) for name in "CSR"]
    sizes = [max(1, n + more) for n, more in zip(most, spare)]
    store = bytearray(scheme.length_of(*sizes))
    assert Scheme(Cheap).make(store, p, *sizes) == Done(())
    for name, t in scheme.tables(store).items():
        store[t.start:t.start + t.width * t.rows] = scheme.arranged(rows[name], t)
    return bytes(store)


def by_hand():
    """The stores written by hand, each with full tables and with free rows: what it is, the store, the numbers."""
    for title, *rows, numbers in MADE:
        for spare in ((0, 0, 0, 0), (2, 1, 3, 1)):
            yield title, holding(dict(zip(ORDER, rows)), spare=spare), numbers


def address_in_use(model):
    """An older C and S with a newer M, V and R, as of a restore that took tables of two days: the store, whose rows go together,
    and an insert, which then goes to an address in use."""
    sizes = (6, 4, 4, 6)
    store = bytearray(scheme.length_of(*sizes))
    assert model.make(store, 0, *sizes) == Done(())
    inserts = [calls.Insert(KEY, *FIELDS[0], 0, 0, bytes([n]) * 12, bytes([n]) * 36, id_of(letter)) for n, letter in enumerate("ABC")]
    assert model.call(store, inserts[0])[0] == Done((1,))
    older = bytes(store)
    assert model.call(store, inserts[1])[0] == Done((2,))
    start, end = (scheme.tables(store)[name].start for name in "CR")
    store[start:end] = older[start:end]
    return bytes(store), inserts[2]


# The numbers another way


def by_counting(store):
    """The numbers by sorting and counting: repeats are the rows less the different tags."""
    rows = {name: used_rows(store, t) for name, t in scheme.tables(store).items()}
    entries, counters = (Counter(x[1:33] for x in rows[name]) for name in "MC")
    tags, ids = Counter(x[17:] for x in rows["V"]), Counter(x[1:17] for x in rows["V"])
    labelled = Counter(x[1:17] for x in rows["R"])

    def alone(one, other):
        return sum(n for x, n in one.items() if not other[x])

    return (entries.total() - len(entries), counters.total() - len(counters), alone(tags, entries), alone(entries, tags),
            alone(ids, labelled), alone(labelled, ids), max(0, labelled.total() - ids.total()))


# What drawn stores had

KINDS = tuple("number %d alone" % n for n in range(1, 8)) + tuple("number %d among others" % n for n in range(1, 8)) + (
    "all 0, with rows", "all 0, ids with several entries", "all 0, V's tags not in order", "no used row", "every tag alike", "every id alike",
    "M full", "V full", "C full", "R full", "M empty alone", "V empty alone", "R empty alone",
    "two tags of M apart in the last byte alone", "two tags of C apart in the last byte alone", "two tags of M apart in the first byte alone",
    "three tags of M begin with the same two bytes", "a lacking tag of V begins with the same two bytes as one of M",
    "a tag of V apart from one of M in the last byte alone", "an id of R apart from one of V in the last byte alone",
    "a tag of M three times", "equal rows of M", "equal rows of C", "a tag of M twice in rows that differ", "a tag of C twice in rows that differ",
    "a repeat in the first two rows of M", "a repeat in the last two rows of M", "a repeat in the first two rows of C",
    "a repeat in the last two rows of C", "the first row of V lacks its entry", "the last row of V lacks its entry",
    "the first row of M is lacking in V", "the last row of M is lacking in V", "the first row of V lacks its label",
    "the last row of V lacks its label", "the first row of R is lacking in V", "the last row of R is lacking in V",
    "a tag of V in the first row of M alone", "a tag of V in the last row of M alone", "a tag of M in the first row of V alone",
    "a tag of M in the last row of V alone", "an id of V in the first row of R alone", "an id of V in the last row of R alone",
    "an id of R in the first row of V alone", "an id of R in the last row of V alone",
    "a tag of V in C and not in M", "fewer rows in R than in V", "more rows in R, and V has each id", "as many rows in R, and V has not each id",
    "a lacking tag in several rows of V", "a lacking id in several rows of R",
    "refused by 10", "refused by 11", "refused by 20")


def near(tags, others, at):
    """Whether a tag of these differs from one of the others in one byte alone."""
    cut = Counter(x[:at] + x[at + 1:] for x in set(others))
    return any(cut[x[:at] + x[at + 1:]] - (x in others) > 0 for x in set(tags))


def alone_at(these, others, at):
    """Whether one of these is among the others at one place alone, which is that one."""
    return bool(others) and others[at] in these and others.count(others[at]) == 1


def kinds(store, answer):
    """The kinds of a store, by what a check answers and by its rows."""
    if isinstance(answer, Refused):
        return ["refused by %d" % answer.number]
    t = scheme.tables(store)
    rows = {name: used_rows(store, t[name]) for name in ORDER}
    entries, counters = ([x[1:33] for x in rows[name]] for name in "MC")
    tags, ids, labelled = [x[17:] for x in rows["V"]], [x[1:17] for x in rows["V"]], [x[1:17] for x in rows["R"]]
    numbers, used = answer.values, sum(map(len, rows.values()))
    good, lack_tags, lack_ids = not any(numbers), [x for x in tags if x not in entries], [x for x in labelled if x not in ids]
    met = {"number %d alone" % (i + 1): n and sum(map(bool, numbers)) == 1 for i, n in enumerate(numbers)}
    met.update({"number %d among others" % (i + 1): n and sum(map(bool, numbers)) > 1 for i, n in enumerate(numbers)})
    met.update({
        "all 0, with rows": good and min(map(len, rows.values())) > 1, "all 0, ids with several entries": good and len(set(ids)) < len(ids),
        "all 0, V's tags not in order": good and tags != sorted(tags), "no used row": not used,
        "every tag alike": len(entries) > 1 and len(set(entries + tags)) == 1, "every id alike": len(ids) > 1 and len(set(ids + labelled)) == 1,
        **{name + " full": len(rows[name]) == t[name].rows > 1 for name in "MVCR"},
        **{name + " empty alone": not rows[name] and all(rows[other] for other in "MVR" if other != name) for name in "MVR"},
        "two tags of M apart in the last byte alone": near(entries, entries, 31),
        "two tags of C apart in the last byte alone": near(counters, counters, 31),
        "two tags of M apart in the first byte alone": near(entries, entries, 0),
        "three tags of M begin with the same two bytes": any(n > 2 for n in Counter(x[:2] for x in set(entries)).values()),
        "a lacking tag of V begins with the same two bytes as one of M": {x[:2] for x in lack_tags} & {x[:2] for x in entries},
        "a tag of V apart from one of M in the last byte alone": near(lack_tags, entries, 31),
        "an id of R apart from one of V in the last byte alone": near(lack_ids, ids, 15),
        "a tag of M three times": any(n > 2 for n in Counter(entries).values()),
        **{"equal rows of " + name: len(set(rows[name])) < len(rows[name]) for name in "MC"},
        **{"a tag of %s twice in rows that differ" % name: len({x[:33] for x in rows[name]}) < len(set(rows[name])) for name in "MC"},
        **{"a repeat in the %s two rows of %s" % (which, name): len(of) > 2 and of[at] == of[at + 1] and Counter(of).total() - len(set(of)) == 1
           for name, of in (("M", entries), ("C", counters)) for which, at in (("first", 0), ("last", -2))},
        **{"the %s row of %s" % (which, what): len(these) > 1 and these[at] not in others
           for what, these, others in (("V lacks its entry", tags, entries), ("M is lacking in V", entries, tags),
                                       ("V lacks its label", ids, labelled), ("R is lacking in V", labelled, ids))
           for which, at in (("first", 0), ("last", -1))},
        **{"%s in the %s row of %s alone" % (what, which, name): alone_at(these, others, at)
           for what, name, these, others in (("a tag of V", "M", tags, entries), ("a tag of M", "V", entries, tags),
                                             ("an id of V", "R", ids, labelled), ("an id of R", "V", labelled, ids))
           for which, at in (("first", 0), ("last", -1))},
        "a tag of V in C and not in M": any(x in counters for x in lack_tags), "fewer rows in R than in V": len(labelled) < len(ids),
        "more rows in R, and V has each id": len(labelled) > len(ids) and not lack_ids,
        "as many rows in R, and V has not each id": len(labelled) == len(ids) and lack_ids,
        "a lacking tag in several rows of V": len(set(lack_tags)) < len(lack_tags),
        "a lacking id in several rows of R": len(set(lack_ids)) < len(lack_ids)})
    assert set(met) <= set(KINDS), set(met) - set(KINDS)
    return [kind for kind, holds in met.items() if holds]


class Faults:
    """A tally of the kinds met."""

    def __init__(self):
        self.tally = dict.fromkeys(KINDS, 0)

    def store(self, store, answer):
        for kind in kinds(store, answer):
            self.tally[kind] += 1

    def too_seldom(self, least):
        return {kind: n for kind, n in self.tally.items() if n < least}

    def __str__(self):
        return "%d kinds of stores, the least %d times" % (len(KINDS), min(self.tally.values()))


# Drawing them


class Stores:
    """What calls left; rows of it then added, taken away and changed, in form again; now and then a store that is refused."""

    def __init__(self, seed, suite, bases=60):
        self.r, self.model = random.Random(seed), Scheme(suite)
        self.bases = [self.filled() for _ in range(bases)]

    def filled(self):
        """The used rows that inserts, erases and compactions leave, and the C and S before the last of them."""
        r, p = self.r, self.r.choice((0, 0, 1))
        store = bytearray(scheme.length_of(40, 20, 20, 40))
        self.model.make(store, p, 40, 20, 20, 40)
        ids, before = [r.randbytes(16) for _ in range(r.choice((1, 2, 5)))], self.rows(store)
        for _ in range(r.randint(0, 9)):
            before, j = self.rows(store), r.choice((1, 1, 2, 3))
            self.model.call(store, r.choices(
                (calls.Insert(KEY, *r.choice(FIELDS), p, r.randint(0, p), r.randbytes(12), r.randbytes(calls.nonce_bytes(j)),
                              b"".join(r.choice(ids) for _ in range(j))),
                 calls.Erase(r.choice(ids)), calls.Compact(KEY, r.randbytes(12 * 20))), (9, 1, 1))[0])
        return p, self.rows(store), before

    def rows(self, store):
        return {name: used_rows(store, t) for name, t in scheme.tables(store).items()}

    def draw(self):
        r = self.r
        p, rows, before = r.choice(self.bases)
        rows = {name: list(of) for name, of in rows.items()}
        for _ in range(r.choice((0, 1, 1, 1, 1, 2, 2, 3))):
            r.choice((self.twice, self.tag_again, self.gone, self.gone, self.changed, self.changed, self.near, self.one_end, self.one_end,
                      self.new, self.new, self.alike, self.alike, self.emptied, self.many, self.older))(rows, before)
        spare = [r.choice((0, 0, 1, 4)) for _ in range(4)]
        store = bytearray(holding(rows, p, spare))
        if r.random() < 0.06:
            self.refused(store)
        return bytes(store)

    # Each takes the used rows by tables, and those before the last call.

    def some(self, rows, names="MVCR"):
        """A table with used rows, and one of them; or None."""
        used = [name for name in names if rows[name]]
        if not used:
            return None
        name = self.r.choice(used)
        return rows[name], self.r.choice((0, -1, self.r.randrange(len(rows[name])))), name

    def twice(self, rows, before):
        """A row once more, or twice more."""
        found = self.some(rows)
        if found:
            found[0].extend([found[0][found[1]]] * self.r.choice((1, 1, 2)))

    def tag_again(self, rows, before):
        """What a row is found by, with another rest: a tag of M or C, an id of V or R, or a tag of V."""
        found = self.some(rows)
        if found:
            of, at, name = found
            width, n = len(of[at]), 33 if name in "MC" else 17
            rest = self.r.randbytes(width - n)
            of.append(of[at][:n] + rest if name != "V" or self.r.random() < 0.5 else b"\1" + self.r.randbytes(16) + of[at][17:])

    def gone(self, rows, before):
        found = self.some(rows)
        if found:
            for _ in range(self.r.choice((1, 1, 2, 5))):
                if found[0]:
                    found[0].pop(self.r.randrange(len(found[0])))

    def changed(self, rows, before):
        """One byte of a row: at an end of its tag or id, or any."""
        found = self.some(rows)
        if found:
            of, at, name = found
            byte = self.r.choice((1, 16, 17, 32, 33, self.r.randint(1, len(of[at]) - 1)))
            of[at] = of[at][:byte] + bytes([of[at][byte] ^ self.r.choice((1, 128, 255))]) + of[at][byte + 1:]

    def near(self, rows, before):
        """A row beside another, which differs from it in one byte of its tag or id."""
        found = self.some(rows)
        if found:
            of, at, name = found
            byte = self.r.choice((1, 32) if name in "MC" else (1, 16) if name == "R" else (1, 16, 17, 48))
            of.append(of[at][:byte] + bytes([of[at][byte] ^ 1]) + of[at][byte + 1:])

    def one_end(self, rows, before):
        """The first or the last row of a table goes, or comes twice."""
        found = self.some(rows)
        if found:
            of = found[0]
            of.sort()
            at = self.r.choice((0, -1))
            if self.r.random() < 0.5:
                of.pop(at)
            else:
                of.append(of[at][:-1] + self.r.choice((of[at][-1:], b"\0")))

    def new(self, rows, before):
        """A row of which a part is another row's: of V a tag of M or of C and any id, or an id and any tag; of R an id of V."""
        r, name = self.r, self.r.choice("MVCR")
        tag = r.choice([x[1:33] for x in rows["M"] + rows["C"]] + [x[17:] for x in rows["V"]] + [bytes(32), b"\xff" * 32, r.randbytes(32)])
        id = r.choice([x[1:17] for x in rows["V"] + rows["R"]] + [bytes(16), b"\xff" * 16, r.randbytes(16)])
        made = {"M": tag + r.randbytes(28), "C": tag + r.randbytes(28), "V": id + tag, "R": id + r.randbytes(44)}[name]
        rows[name].extend([b"\1" + made] * r.choice((1, 1, 2)))

    def alike(self, rows, before):
        """Every tag of M and V is one, or every id; or they begin alike."""
        n, start = self.r.choice((2, 2, 8, 31, 32)), self.r.choice((bytes(32), b"\xff" * 32, self.r.randbytes(32)))
        if self.r.random() < 0.7:
            rows["M"][:] = [b"\1" + start[:n] + x[1 + n:] for x in rows["M"]]
            rows["V"][:] = [x[:17] + start[:n] + x[17 + n:] for x in rows["V"]]
        else:
            n = min(n, 16)
            for name in "VR":
                rows[name][:] = [b"\1" + start[:n] + x[1 + n:] for x in rows[name]]

    def emptied(self, rows, before):
        rows[self.r.choice("MVCR")].clear()

    def many(self, rows, before):
        """A table of any rows."""
        name, r = self.r.choice("MVCR"), self.r
        rows[name][:] = [b"\1" + r.randbytes(scheme.WIDTH[name] - 1) for _ in range(r.choice((1, 5, 20)))]

    def older(self, rows, before):
        """Some tables of the store before the last call."""
        for name in self.r.sample("MVCSR", self.r.randint(1, 4)):
            rows[name][:] = before[name]

    def refused(self, store):
        """By 10, 11 or 20, now and then by several."""
        r, t = self.r, scheme.tables(store)[self.r.choice("MVCSR")]
        for wanted in r.choice(((10,), (11,), (20,), (20,), (11, 20), (10, 11, 20))):
            at = t.start + t.width * r.randrange(t.rows)
            if wanted == 10:
                store[r.choice((0, 1, 2, 9))] ^= 128
            elif wanted == 11:
                store[at] = r.choice((2, 255))
            elif store[t.start + t.width * (t.rows - 1)] == 0:
                store[t.start + t.width * t.rows - 1] = r.choice((1, 128))
            elif t.rows > 1:
                store[t.start] = 0


def refusals(store):
    """A store that is accepted, in each of the ways in which it is refused, with the number, one table after another; and what is
    beside each and accepted."""
    for at, byte in ((0, 1), (0, 3), (1, 16), (2, 17), (3, 0), (5, 0), (7, 0), (8, 17), (9, 0)):
        yield store[:at] + bytes([byte]) + store[at + 1:], 10
    for n in (0, 9, 10, len(store) - 1):
        yield store[:n], 10
    yield store + b"\0", 10
    for t in scheme.tables(store).values():
        for i in {0, t.rows - 1}:
            at = t.start + t.width * i
            for mark in (2, 255):
                yield store[:at] + bytes([mark]) + store[at + 1:], 11
            if store[at] == 0:
                for byte in (at + 1, at + t.width - 1):
                    yield store[:byte] + b"\1" + store[byte + 1:], 20
        rows = [scheme.row(store, t, i) for i in range(t.rows)]
        if rows[0] != rows[-1]:
            yield store[:t.start] + b"".join(rows[::-1]) + store[t.start + t.width * t.rows:], 20
    yield store, None


def check(seed, number, suite):
    """Checks of so many stores; the tally, or a fault."""
    drawn, met, model = Stores(seed, suite), Faults(), Scheme(suite)
    for i in range(number):
        store = drawn.draw()
        fault = fault_of(store, model.check(store))
        if fault:
            return "FAULT: %s, store %d, seed %d: %s" % (fault, i, seed, store.hex())
        met.store(store, model.check(store))
    return met


def fault_of(store, answer):
    """What is wrong with an answer that was not refused, or None."""
    if isinstance(answer, Done) and answer.values != by_counting(store):
        return "counting gives %r, and the answer is %r" % (by_counting(store), answer)
    return None
