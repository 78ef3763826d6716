"""The rows that a count looks at, by the sentences of document 02, request 3, and apart from the model: each lookup goes
from row to row of C and ends at the first used one whose tag is not smaller [02:W3.1], and the tally is kept on the way.
And stores for counts, with a tally of what their lookups met, so that a test knows that each kind was tried.
"""
import random

import scheme
from calls import Done, Refused
from primitives import number
from scheme import GREATEST, Scheme, header, row, tables

# What a lookup meets in table C.
LOOKUPS = ("no used row", "below all rows", "above all rows", "above all rows of a full table", "between two rows",
           "at the first row", "at the last row", "at the last row of a full table", "one less than a row's", "one more than a row's",
           "other rows smaller as signed bytes", "a tag in two rows", "past a tag in two rows")
# What a count meets.
COUNTS = ("c anchors held", "c counters held", "a counter after an anchor", "several shares with rows", "damage",
          "damage behind a share that was read")
KINDS = LOOKUPS + COUNTS


def value(tag):
    return int.from_bytes(tag, "big")


def walked(store, tag):
    """A lookup that ends as soon as it may: whether the tag is held, and how many rows were looked at."""
    t = tables(store)["C"]
    for i in range(t.rows):
        r = row(store, t, i)
        if r[0] == 0:
            return False, i
        if value(r[1:33]) >= value(tag):
            return r[1:33] == tag, i + 1
    return False, t.rows


def numbers_of(model, store, cl, tag):
    """The two numbers in the first row with the tag."""
    t = tables(store)["C"]
    i = next(i for i in range(t.rows) if row(store, t, i)[:33] == b"\1" + tag)
    return model.open_c(store, cl, i)


def met_by(store, tag):
    """The kinds of a lookup, by how the tag stands to the tags of the used rows."""
    c = header(store).c
    rows = [value(row(store, tables(store)["C"], i)[1:33]) for i in range(c) if store[tables(store)["C"].start + 61 * i] == 1]
    tag, n = value(tag), len(rows)
    smaller = [x for x in rows if x < tag]
    greater = [x for x in rows if x > tag]
    held = rows.count(tag)
    # Signed bytes exchange the halves, where the first bytes decide.
    signed = sum((x >> 248) ^ 0x80 < (tag >> 248) ^ 0x80 for x in rows if x >> 248 != tag >> 248)
    met = {"no used row": n == 0, "below all rows": n > 0 and len(greater) == n, "above all rows": n > 0 and len(smaller) == n,
           "above all rows of a full table": len(smaller) == c, "between two rows": not held and smaller and greater,
           "at the first row": held and not smaller, "at the last row": held == 1 and not greater and smaller,
           "at the last row of a full table": held == 1 and not greater and n == c, "one less than a row's": tag + 1 in rows,
           "one more than a row's": tag - 1 in rows, "other rows smaller as signed bytes": signed != sum(x >> 248 < tag >> 248 for x in rows),
           "a tag in two rows": held > 1, "past a tag in two rows": len(set(smaller)) < len(smaller)}
    assert tuple(met) == LOOKUPS
    return [kind for kind, holds in met.items() if holds]


def tallied(model, store, token, note=lambda kind: None):
    """The count and the rows looked at, or None at damage; `note` is told the kinds that were met."""
    h, total, looked, shares = header(store), 0, 0, 0

    def run(cl, tag, start):
        """How many of a kind are held from a number on: c at most, and no lookup is made after c."""
        nonlocal looked
        for i in range(h.c):
            wanted = tag(cl, start + i + 1)
            held, rows = walked(store, wanted)
            looked += rows
            for kind in met_by(store, wanted):
                note(kind)
            if not held:
                return i
        return h.c

    for u in range(h.p + 1):
        cl = model.F(token, number(u))
        start, count = 0, 0
        anchors = run(cl, model.anchor_tag, 0)
        if anchors:
            start, count = numbers_of(model, store, cl, model.anchor_tag(cl, anchors))
        bad = max(start, count) > GREATEST
        k = 0 if bad else run(cl, model.counter_tag, start)
        if k:
            zero, count = numbers_of(model, store, cl, model.counter_tag(cl, start + k))
            bad = zero != 0 or count > GREATEST
        if bad:
            note("damage")
            if looked and u > 0:
                note("damage behind a share that was read")
            return None
        for kind, holds in (("c anchors held", anchors == h.c), ("c counters held", k == h.c),
                            ("a counter after an anchor", anchors and k)):
            if holds:
                note(kind)
        shares += anchors > 0 or k > 0
        total += count
    if shares > 1:
        note("several shares with rows")
    return total, looked


def most(store):
    """2 c (p + 1) times the used rows of C [02:W3.11]."""
    h = header(store)
    return 2 * h.c * (h.p + 1) * len(scheme.used(store, tables(store)["C"]))


class Looked:
    """A tally of the kinds met."""

    def __init__(self):
        self.tally, self.rows, self.greatest = dict.fromkeys(KINDS, 0), 0, 0

    def note(self, kind):
        self.tally[kind] += 1

    def fault(self, model, store, token, answer):
        """What is wrong with the answer of a count on a store in form, or None."""
        wanted = tallied(model, store, token, self.note)
        if wanted is None:
            return None if answer == Refused(13, ()) else "damage told as %r" % (answer,)
        if answer != Done(wanted):
            return "a walk from row to row gives %r, and the answer is %r" % (wanted, answer)
        if wanted[1] > most(store):
            return "%d rows are more than 2 c (p + 1) times the used ones" % wanted[1]
        self.rows, self.greatest = self.rows + wanted[1], max(self.greatest, wanted[1])
        return None

    def too_seldom(self, least):
        return {kind: n for kind, n in self.tally.items() if n < least}

    def __str__(self):
        return "%d rows looked at, %d at most in a count, %d kinds of lookups and counts, the least %d times" % (
            self.rows, self.greatest, len(KINDS), min(self.tally.values()))


class Stores:
    """Stores with a table C for counts, and a count's token; all in form."""

    def __init__(self, seed, suite):
        self.r, self.model = random.Random(seed), Scheme(suite)

    def draw(self):
        r = self.r
        c = r.choice((1, 1, 2, 3, 4, 5, 6, 8, r.randint(9, 40)))
        shape = r.choice(("c anchors", "c counters", "any", "any", "any", "none"))
        return self.with_sizes(r.choice((0, 0, 1, 2, r.randint(3, 15))), c, shape)

    def with_sizes(self, p, c, shape):
        r, model = self.r, self.model
        store, token = bytearray(scheme.length_of(1, c, 1, 1)), r.randbytes(32)
        assert model.make(store, p, 1, c, 1, 1) == Done(())
        rows, wanted = [], []
        for u in r.sample(range(p + 1), min(p + 1, 1 if shape.startswith("c ") else r.choice((1, 2, 3)))):
            cl, room = model.F(token, number(u)), c - len(rows)
            anchors = {"c anchors": room, "c counters": 0, "none": 0}.get(shape, r.randint(0, min(room, 3)))
            k = {"c counters": room, "none": 0}.get(shape, r.randint(0, min(room - anchors, 4)))
            start = r.choice((0, 1, 5, GREATEST - 1, GREATEST)) if anchors else 0
            wanted += [model.anchor_tag(cl, n) for n in range(1, anchors + 2)]
            wanted += [model.counter_tag(cl, start + n) for n in range(1, k + 2)]
            for n in range(1, anchors + 1):
                rows.append(self.c_row(cl, model.anchor_tag(cl, n), start if n == anchors else 2 ** 40, n == anchors))
            for n in range(1, k + 1):
                rows.append(self.c_row(cl, model.counter_tag(cl, start + n), 0 if n == k else 7, n == k))
        wanted += [tag for u in range(p + 1) for cl in [model.F(token, number(u))]
                   for tag in (model.anchor_tag(cl, 1), model.counter_tag(cl, 1))]
        free = r.choice((0, 0, 1, c // 2, c))
        while len(rows) < c - free:
            if rows and r.random() < 0.1:
                # A tag once more: an equal row, or one that stands behind it.
                again = r.choice(rows)
                rows.append(r.choice((again, again[:33] + b"\xff" * 28)))
            else:
                rows.append(b"\1" + self.beside(wanted) + r.randbytes(28))
        model.put(store, "C", *rows)
        return bytes(store), token

    def c_row(self, cl, tag, one, last):
        """A row held; the last of its kind is read, and now and then damaged. Of the others any numbers do."""
        r = self.r
        two = r.choice((0, 1, 9, GREATEST, r.randint(0, GREATEST)))
        if last and r.random() < 0.05:
            one, two = r.choice(((one + GREATEST + 1, two), (one, two + GREATEST + 1), (2 ** 64 - 1, two)))
        return self.model.c_row(cl, tag, r.randbytes(12), one, two)

    def beside(self, wanted):
        """The tag of another row: the least or the greatest, next to one that is looked up, or any."""
        r = self.r
        tag = value(r.choice(wanted))
        kind = r.randrange(7)
        if kind == 0:
            return bytes(32)
        if kind == 1:
            return b"\xff" * 32
        if kind < 5:
            step = r.choice((1, 1, 2, 2 ** 8, 2 ** 200))
            return min(max(tag + (step if kind == 2 else -step), 0), 2 ** 256 - 1).to_bytes(32, "big")
        if kind == 5:
            return r.choice((b"\x7f", b"\x80")) + r.randbytes(31)
        return r.randbytes(32)


def check(seed, stores, suite):
    """Counts on so many stores; the tally, or a fault."""
    drawn, looked = Stores(seed, suite), Looked()
    model = Scheme(suite)
    for i in range(stores):
        store, token = drawn.draw()
        fault = looked.fault(model, store, token, model.count(store, token))
        if fault:
            return "FAULT: %s, store %d, seed %d: %s, token %s" % (fault, i, seed, store.hex(), token.hex())
    return looked
