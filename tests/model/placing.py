"""Rows in any place, as before request 2 of document 02: a new row takes a free row of its table, whichever, a freed row
is zeroed where it stands, and no table is refused for its form. What that leaves is a store for an order; and a step of it
between two orders is a step of the model, which shares none of this placing.
"""
import itertools
import random

import calls
import scheme
from calls import Done
from primitives import Real
from scheme import set_row, tables

KEY = bytes(range(32))


# A row placing picks among the free rows of a table the one that takes the new row.


def lowest(table, rows):
    """The free row of lowest index."""
    return rows[0]


def random_place(generator):
    return lambda table, rows: generator.choice(rows)


class Anywhere(scheme.Scheme):
    def __init__(self, suite, place=lowest):
        super().__init__(suite)
        self.place = place

    def put(self, store, name, *contents):
        t = tables(store)[name]
        for content in contents:
            set_row(store, t, self.place(t, scheme.free(store, t)), content)

    def free_rows(self, store, name, places):
        t = tables(store)[name]
        for i in places:
            set_row(store, t, i, bytes(t.width))

    def treat(self, store, cl, counter, nonce):
        """With the lowest free rows an anchor stands where the first counter freed stood."""
        place = self.place
        if place is lowest:
            self.place = lambda table, rows: counter.held[0]
        super().treat(store, cl, counter, nonce)
        self.place = place

    def state_conditions(self, store):
        yield from self.store_conditions(store)


class Moved:
    """A store with rows in any place until the first `order` of the list, from then on in form [02:W2.6 W2.10]."""

    def __init__(self, suite, place):
        self.before, self.now = Anywhere(suite, place), scheme.Scheme(suite)

    def make(self, store, *sizes):
        self.model = self.before
        return self.model.make(store, *sizes)

    def call(self, store, call):
        if isinstance(call, calls.Order):
            self.model = self.now
        return self.model.call(store, call)


class Between:
    """A step under any placing, between two orders."""

    def __init__(self, suite, place):
        self.before, self.now = Anywhere(suite, place), scheme.Scheme(suite)

    def make(self, store, *sizes):
        return self.before.make(store, *sizes)

    def call(self, store, call):
        told = (self.now if isinstance(call, calls.Order) else self.before).call(store, call)
        assert isinstance(self.now.order(store), Done)
        return told


def filled(suite, place, p, sizes, number, generator, junk=False):
    """A store filled by inserts, erases and compactions under a placing, its calls, and the model that made
    it. With `junk`, its free rows hold any bytes."""
    model, store, made = Anywhere(suite, place), bytearray(scheme.length_of(*sizes)), []
    model.make(store, p, *sizes)
    if junk:
        for t in tables(store).values():
            for i in range(t.rows):
                set_row(store, t, i, b"\0" + generator.randbytes(t.width - 1))
    ids = [generator.randbytes(16) for _ in range(6)]
    for _ in range(number):
        j = generator.choice((1, 1, 2, 3))
        field = generator.choice(FIELDS)
        call = generator.choices(
            (calls.Insert(KEY, *field, p, generator.randint(0, p), generator.randbytes(12),
                          generator.randbytes(calls.nonce_bytes(j)), b"".join(generator.choice(ids) for _ in range(j))),
             calls.Erase(generator.choice(ids)), calls.Compact(KEY, generator.randbytes(12 * sizes[2]))),
            (8, 2, 1))[0]
        model.call(store, call)
        made.append(call)
    return bytes(store), made, model


FIELDS = [(b"hue", b"red"), (b"a", b"bc"), (b"size", b"L")]


def reading_calls():
    """A find and a count of each field, then a joint find of them all and of each two, both ways."""
    result = [call for field in FIELDS for call in (calls.Find(KEY, *field, bytes(16 * 4096)), calls.Count(KEY, *field))]
    joined = [FIELDS] + [pair for pair in itertools.permutations(FIELDS, 2)]
    return result + [calls.JointFind([calls.Part(KEY, *field) for field in fields], bytes(16 * 4096)) for fields in joined]


def readings(model, store):
    """What they tell, the rows that a count looks at left out: they are for rows in form."""
    told = []
    for call in reading_calls():
        answer, output = model.call(store, call)
        told.append((calls.compared(call, answer), output))
    return told


def out_of_form(store):
    model = scheme.Scheme(Real)
    return not all(model.in_form(store, t) for t in tables(store).values())


def check(seed, number, suite):
    """Stores with rows in any place: 20 by all calls but an order, and after it all finds and counts tell what they
    told [02:W2.6 W2.7 W2.8 W2.9]. How many were out of form, or a fault."""
    r, out = random.Random(seed), 0
    now = scheme.Scheme(suite)
    for i in range(number):
        p, sizes = r.choice((0, 1, 2)), tuple(r.randint(2, 12) for _ in range(4))
        place = lowest if i % 2 else random_place(r)
        store, _, before = filled(suite, place, p, sizes, r.randint(1, 15), r, junk=i % 5 == 0)
        told, rows = readings(before, store), {n: sorted(scheme.used_rows(store, t)) for n, t in tables(store).items()}
        if out_of_form(store):
            out += 1
            for call in (calls.Find(KEY, *FIELDS[0], b""), calls.Count(KEY, *FIELDS[0]), calls.Erase(bytes(16)),
                         calls.Compact(KEY, b""), calls.Insert(KEY, *FIELDS[0], (p + 1) % 3, 0, bytes(12), bytes(36), bytes(16)),
                         calls.Test(KEY, *FIELDS[0], bytes(16)), calls.JointFind([calls.Part(KEY, *FIELDS[0])], b"")):
                same = bytearray(store)
                if now.call(same, call)[0] != calls.Refused(20, ()) or same != store:
                    return "FAULT: %r on a store with rows in any place, list %d, seed %d" % (call, i, seed)
        after = bytearray(store)
        if now.order(after) != Done((sum(map(len, rows.values())),)):
            return "FAULT: the answer of an order, list %d, seed %d" % (i, seed)
        kept = {n: scheme.used_rows(after, t) for n, t in tables(after).items()}
        if kept != rows or readings(now, after) != told:
            return "FAULT: rows or answers after an order, list %d, seed %d" % (i, seed)
    return out
