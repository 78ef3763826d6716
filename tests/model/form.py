"""The form of a table, by the sentences of document 02, request 2, and apart from the model: used rows first, ascending
by all their bytes as unsigned, equal rows allowed, free rows all zero [02:W2.1 W2.2 W2.3]. And the ways of being out of
form, each made and each counted, so that a test knows that its stores tried every one in every table.
"""
from scheme import WIDTH, row, tables


def faults(store, t):
    """What is out of form in a table, as (kind, row) in order; nothing where it is in form.

    Rows are compared as numbers: of two of the same length the one whose bytes come first is the smaller.
    """
    rows = [row(store, t, i) for i in range(t.rows)]
    found = []
    for i, (one, two) in enumerate(zip(rows, rows[1:])):
        if one[0] == 0 and two[0] == 1:
            found.append(("used after free", i))
        elif one[0] == two[0] == 1 and int.from_bytes(one, "big") > int.from_bytes(two, "big"):
            found.append(("descending", i))
    found += [("left over", i) for i, r in enumerate(rows) if r[0] == 0 and any(r)]
    return found


def in_form(store):
    return not any(faults(store, t) for t in tables(store).values())


# Ways of being out of form, each in a table that has no other fault.

OUT = ("two rows exchanged", "exchanged, apart in the byte after the mark alone", "exchanged, apart in the last byte alone",
       "exchanged, apart in a byte between alone", "in order as signed bytes", "the first two exchanged", "the last two exchanged",
       "the last two of a full table exchanged", "a free row before all used ones", "a free row among used ones",
       "a used last row after free ones", "left over in the byte after the mark", "left over in the last byte",
       "left over in a byte between", "left over in the first free row", "left over in the last row of the table")
# What is in form, and near to what is not.
IN = ("equal rows", "apart in the byte after the mark alone", "apart in the last byte alone", "0x7f before 0x80", "full", "empty",
      "one row")


def apart(one, two):
    return [at for at in range(len(one)) if one[at] != two[at]]


def signed(content):
    return [byte - 256 if byte > 127 else byte for byte in content]


def ways_out(store, t):
    """The ways in which a table with a single fault is out of form."""
    found = faults(store, t)
    if len(found) != 1:
        return set()
    (kind, i), rows = found[0], [row(store, t, i) for i in range(t.rows)]
    n = sum(r[0] for r in rows)
    if kind == "descending":
        at = apart(rows[i], rows[i + 1])
        met = {"two rows exchanged": True, "exchanged, apart in the byte after the mark alone": at == [1],
               "exchanged, apart in the last byte alone": at == [t.width - 1],
               "exchanged, apart in a byte between alone": len(at) == 1 and 1 < at[0] < t.width - 1,
               "in order as signed bytes": signed(rows[i]) < signed(rows[i + 1]),
               "the first two exchanged": i == 0, "the last two exchanged": i == n - 2,
               "the last two of a full table exchanged": i == n - 2 and n == t.rows}
    elif kind == "used after free":
        met = {"a free row before all used ones": not any(r[0] for r in rows[:i + 1]),
               "a free row among used ones": any(r[0] for r in rows[:i + 1]),
               "a used last row after free ones": i == t.rows - 2}
    else:
        at = [k for k, byte in enumerate(rows[i]) if byte]
        met = {"left over in the byte after the mark": at == [1], "left over in the last byte": at == [t.width - 1],
               "left over in a byte between": len(at) == 1 and 1 < at[0] < t.width - 1,
               "left over in the first free row": i == n, "left over in the last row of the table": i == t.rows - 1}
    assert set(met) <= set(OUT)
    return {kind for kind, holds in met.items() if holds}


def ways_in(store, t):
    if faults(store, t):
        return set()
    rows = [row(store, t, i) for i in range(t.rows) if store[t.start + t.width * i] == 1]
    pairs = [(one, two, apart(one, two)) for one, two in zip(rows, rows[1:])]
    met = {"equal rows": any(not at for _, _, at in pairs), "apart in the byte after the mark alone": any(at == [1] for _, _, at in pairs),
           "apart in the last byte alone": any(at == [t.width - 1] for _, _, at in pairs),
           "0x7f before 0x80": any(signed(one) > signed(two) for one, two, _ in pairs),
           "full": len(rows) == t.rows, "empty": not rows, "one row": len(rows) == 1}
    assert tuple(met) == IN
    return {kind for kind, holds in met.items() if holds}


class Forms:
    """A tally of the ways met, by table; a store counts where one of its tables is out of form, or none."""

    def __init__(self):
        self.tally = {(name, way): 0 for name in WIDTH for way in OUT + IN}

    def store(self, store):
        out = [name for name, t in tables(store).items() if faults(store, t)]
        for name, t in tables(store).items():
            for way in ways_out(store, t) if out == [name] else ways_in(store, t) if not out else ():
                self.tally[name, way] += 1

    def too_seldom(self, least):
        return {way: n for way, n in self.tally.items() if n < least}

    def __str__(self):
        return "%d ways of being out of form and %d of being just in form in each of %d tables, the least %d times" % (
            len(OUT), len(IN), len(WIDTH), min(self.tally.values()))


# Making them


def written(store, t, rows):
    store[t.start:t.start + t.width * t.rows] = b"".join(rows)


def with_rows(generator, store, t, least, most):
    """The used rows of a table, in order, brought to a number from `least` to `most`."""
    r = generator
    rows = [row(store, t, i) for i in range(t.rows) if store[t.start + t.width * i] == 1]
    n = min(max(len(rows), least), most)
    rows = r.sample(rows, min(n, len(rows)))
    while len(rows) < n:
        rows.append(b"\1" + (rows[0][1:] if rows and r.random() < 0.3 else r.randbytes(t.width - 1)))
    return sorted(rows)


def two_rows(generator, t, at):
    """Two rows that differ in one byte, the smaller first; there often 0x7f and 0x80."""
    low, high = generator.choice(((0x7f, 0x80), (0, 1), (0xfe, 0xff), (0, 0xff), tuple(sorted(generator.sample(range(256), 2)))))
    rest = bytearray(b"\1" + generator.randbytes(t.width - 1))
    result = []
    for byte in (low, high):
        rest[at] = byte
        result.append(bytes(rest))
    return result


def break_form(generator, store, name):
    """Puts one table of a store out of form, in one way; a table of one row can only have bytes left over, or, with
    a used row, nothing."""
    r, t = generator, tables(store)[name]
    kind = r.choice(("exchange", "exchange", "apart", "apart", "apart", "gap", "left", "left")) if t.rows > 1 else "left"
    zero = bytes(t.width)
    if kind == "exchange":
        rows = with_rows(r, store, t, 2, r.choice((t.rows, t.rows, max(2, t.rows - 1))))
        i = r.choice((0, len(rows) - 2, r.randrange(len(rows) - 1)))
        rows[i], rows[i + 1] = rows[i + 1], rows[i]
    elif kind == "apart":
        # Two rows that differ in one byte, exchanged among the others.
        most = r.choice((t.rows - 2, t.rows - 2, r.randint(0, t.rows - 2)))
        at = r.choice((1, t.width - 1, r.randint(1, t.width - 1), 7, 8, 9, 16, 17, 32, 33))
        small, great = two_rows(r, t, at)
        rows = with_rows(r, store, t, most if r.random() < 0.5 else 0, most)
        rows = [x for x in rows if x <= small] + [great, small] + [x for x in rows if x >= great]
    elif kind == "gap":
        rows = with_rows(r, store, t, 1, t.rows - 1)
        at = r.choice((0, len(rows) - 1, r.randrange(len(rows))))
        gap = r.choice((1, 1, t.rows - len(rows)))
        rows[at:at] = [zero] * gap
    else:
        rows = with_rows(r, store, t, 0, t.rows - 1)
        free = t.rows - len(rows)
        i = r.choice((0, free - 1, r.randrange(free)))
        left = bytearray(zero)
        left[r.choice((1, t.width - 1, r.randint(1, t.width - 1)))] = r.choice((1, 0x7f, 0x80, 255))
        rows += [zero] * i + [bytes(left)]
    written(store, t, rows + [zero] * (t.rows - len(rows)))


def near_rows(generator, store, name):
    """Rows of a table that are in form and near to being out of it: equal ones, ones that differ in one byte, full
    tables."""
    r, t = generator, tables(store)[name]
    rows = with_rows(r, store, t, 0, t.rows - 2) if t.rows > 2 else []
    if t.rows > 1:
        one, two = two_rows(r, t, r.choice((1, t.width - 1, r.randint(1, t.width - 1))))
        rows = rows + r.choice(([one, two], [one, one], [r.choice(rows or [one])] * 2))
    if r.random() < 0.3:
        rows = with_rows(r, store, t, t.rows, t.rows)
    written(store, t, sorted(rows) + [bytes(t.width)] * (t.rows - len(rows)))
