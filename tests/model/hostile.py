"""Hostile stores for the nine operations: the papers say what each call does for all inputs.

A store that some calls made is broken in one or more ways: header, length, marks, damaged and
forged rows, R rows missing or of another mark, tags and ids that repeat, bytes in free rows, random
bytes. Most of them are then put in form, so that the later refusals are met too; of others one table
is put out of form in one way; the rest stay as they are [02:W2.11 W2.12]. `Hostile.draw` gives the store
and a call; `check` runs the model on it, and a check besides, and holds it to what no store may change.
"""
import random
from collections import Counter

import calls
import faults
import form
import looked
import scheme
from primitives import number
from scheme import GREATEST, HEADER, WIDTH, Scheme, row, set_row, tables, used, used_rows

FIELDS = [(b"hue", b"red"), (b"a", b"bc")]
KEY = bytes(range(32))


class Hostile:
    def __init__(self, seed, suite):
        self.r = random.Random(seed)
        self.suite = suite
        self.known = []

    def bytes(self, n):
        return bytes(self.r.getrandbits(8) for _ in range(n))

    def draw(self):
        """A broken store and a call on it."""
        r, model = self.r, Scheme(self.suite)
        self.shape()
        store = bytearray(scheme.length_of(*self.sizes))
        model.make(store, self.p, *self.sizes)
        for _ in range(r.randint(0, 8)):
            model.call(store, self.call())
        call = self.call()
        # A find walks as many addresses as the count says, so there an accepted count is small.
        self.counts = [0, 1, 2, 5, GREATEST + 1, 2 ** 64 - 1]
        if not calls.has_output(call):
            self.counts += [GREATEST - 2, GREATEST - 1, GREATEST]
        self.break_contents(model, store, r.choice((1, 1, 2, 4)))
        self.settle(model, store)
        return store, call

    def break_contents(self, model, store, times):
        """Whatever stands in the store, in form or not."""
        ways = {self.forge: 16, self.repeat: 8, self.damage: 8, self.swap: 6, self.free_bytes: 2, self.mark: 1,
                self.header: 1, self.length: 1, self.other_header: 1, self.noise: 1, self.entry: 12, self.entries: 6, self.rows: 1,
                self.label: 12, self.unlabelled: 10, self.together: 20}
        for _ in range(times):
            self.r.choices(list(ways), ways.values())[0](model, store)
            if scheme.header(store) is None:
                return

    def settle(self, model, store):
        """Mostly in form; or one table out of form in one way; or as the store is. Then now and then a wrong mark,
        which is told before the form."""
        r = self.r
        if scheme.header(store) is None or scheme.marks_wrong(store) or r.random() < 0.1:
            return
        model.order(store)
        name, kind = r.choice(list(WIDTH)), r.random()
        if kind < 0.3:
            form.break_form(r, store, name)
            if r.random() < 0.15:
                self.mark(model, store)
        elif kind < 0.5:
            form.near_rows(r, store, name)

    def shape(self):
        """The store's p, m, c, s, r; some have room for many entries of an id."""
        r = self.r
        self.p, self.sizes = r.choice((0, 1, 2)), [r.randint(1, 6) for _ in range(4)]
        if r.random() < 0.3:
            self.sizes = [r.randint(6, 20) for _ in range(4)]
        self.known = []
        self.known = [self.id() for _ in range(3)]

    def id(self):
        """One of few ids, mostly of the store's own three: they differ in every byte, or in one; or are multiples of a number,
        as fall into one bucket of a hash table."""
        r, kind = self.r, self.r.random()
        if self.known and r.random() < 0.6:
            return r.choice(self.known)
        if kind < 0.2:
            return (4093 * r.randint(0, 3) << r.choice((0, 64))).to_bytes(16, "big")
        id = bytearray(bytes([r.randint(0, 3)]) * 16)
        if kind < 0.6:
            id[r.choice((0, 7, 8, 15))] ^= 1
        return bytes(id)

    def call(self):
        r = self.r
        field, id = r.choice(FIELDS), self.id()
        j = r.choice((1, 1, 2, 3))
        ids = id * j if r.random() < 0.5 else b"".join(self.id() for _ in range(j))
        # A token of another p is told after the form.
        p = self.p if r.random() < 0.9 else self.p + 1
        insert = calls.Insert(KEY, *field, p, r.randint(0, p), self.bytes(12), self.bytes(calls.nonce_bytes(j)), ids)
        nonces = r.choice((self.sizes[2], self.sizes[2], r.randint(0, self.sizes[2])))
        compact = calls.Compact(KEY, self.bytes(12 * nonces))
        find = calls.Find(KEY, *field, self.bytes(r.choice((0, 16, 96, 200))))
        erase = calls.Erase(id if r.random() < 0.95 else id[:15])
        test = calls.Test(KEY, *field, id if r.random() < 0.95 else id[:15])
        joint = calls.JointFind(self.joint_parts(), self.bytes(r.choice((0, 15, 16, 96, 200))))
        return r.choices((insert, compact, find, calls.Count(KEY, *field), erase, calls.Order(), test, joint),
                         (4, 3, 2, 2, 3, 2, 2, 4))[0]

    def joint_parts(self):
        """1 to 8, mostly two; now and then none or nine."""
        n = self.r.choice((1, 2, 2, 2, 2, 3, 8)) if self.r.random() < 0.97 else self.r.choice((0, 9))
        return [calls.Part(KEY, *self.r.choice(FIELDS)) for _ in range(n)]

    # Ways to break a store

    def any_row(self, store, names=tuple(WIDTH)):
        t = tables(store)[self.r.choice(names)]
        return t, self.r.randrange(t.rows)

    def cl(self, model):
        """The CL of a field and a share."""
        return model.F(model.counter_key(KEY, *self.r.choice(FIELDS)),
                       number(self.r.randint(0, self.p)))

    def forge(self, model, store):
        """A counter or anchor row, or an S row, that no insert or compaction wrote."""
        r, cl = self.r, self.cl(model)
        if r.random() < 0.3:
            t, i = self.any_row(store, "S")
            nonce = self.bytes(12)
            set_row(store, t, i, b"\1" + nonce + model.E(model.master(KEY, 3), nonce, cl))
            return
        t, i = self.any_row(store, "C")
        counter = model.read(store, cl)
        n = r.choice((1, 2, 3, GREATEST, GREATEST + 1, 2 ** 64 - 1))
        if r.random() < 0.5:
            # The next anchor or a later one: the reading meets it.
            n = counter.anchors + 1 if counter and r.random() < 0.7 else n
            tag = model.anchor_tag(cl, n)
            one = r.choice((0, 1, 2, 3, GREATEST - 1, GREATEST, GREATEST + 1, 2 ** 64 - 1))
        else:
            n = counter.start + counter.k + 1 if counter and r.random() < 0.7 else n
            tag = model.counter_tag(cl, n)
            one = r.choice((0, 0, 0, 1, 2 ** 63))
        set_row(store, t, i, model.c_row(cl, tag, self.bytes(12), one, r.choice(self.counts)))

    def entry(self, model, store, fields=FIELDS, addresses=range(1, 7)):
        """An M row at an address of a field and share that no insert wrote, with one of the few ids."""
        t, i = self.any_row(store, "M")
        field, u = self.r.choice(fields), self.r.randint(0, self.p)
        set_row(store, t, i, self.entry_row(model, field, u, max(0, self.r.choice(addresses)), self.id()))

    def entry_row(self, model, field, u, address, id):
        mt, me = (model.F(key(KEY, *field), number(u)) for key in (model.address_key, model.entry_key))
        nonce = self.bytes(12)
        return b"\1" + model.entry_tag(mt, address) + nonce + model.E(me, nonce, id)

    def entries(self, model, store):
        """Entries of one field, of few ids, and counts of its first and last share that reach them."""
        field = self.r.choice(FIELDS)
        for u in {0, self.p}:
            self.reach(model, store, field, u, 4)
        for _ in range(self.r.choice((2, 4))):
            self.entry(model, store, [field], range(1, 5))

    def reach(self, model, store, field, u, n):
        """The count of a field's share comes to n, if it is less."""
        cl = model.F(model.counter_key(KEY, *field), number(u))
        counter = model.read(store, cl)
        if counter is not None and counter.count < n:
            self.place(store, "C", model.c_row(cl, model.counter_tag(cl, counter.start + counter.k + 1), self.bytes(12), 0, n))

    def place(self, store, name, content):
        """A row in a free place, or over another where there is none."""
        t, i = self.any_row(store, name)
        set_row(store, t, self.r.choice(scheme.free(store, t) or [i]), content)

    def together(self, model, store):
        """Both fields get the same ids, each in its order; of these some get rows of V and some of R, of which some have
        another R mark."""
        r = self.r
        for field in FIELDS:
            self.reach(model, store, field, 0, r.choice((2, 3, 3, 4)))
            for address, id in enumerate(r.sample(self.known, r.choice((2, 3))), 1):
                entry = self.entry_row(model, field, 0, address, id)
                self.place(store, "M", entry)
                if r.random() < 0.4:
                    self.place(store, "V", b"\1" + id + entry[1:33])
                if r.random() < 0.6:
                    self.place(store, "R", self.label_row(model, field, id))

    def label(self, model, store):
        """An R row that no insert wrote, of one of the few ids."""
        t, i = self.any_row(store, "R")
        set_row(store, t, i, self.label_row(model, self.r.choice(FIELDS), self.id()))

    def label_row(self, model, field, id):
        """With RL's R mark, or with that of another nonce, of another id, of the id alone, or the other way round, or with its last
        byte changed."""
        rl, nonce = model.mark_key(KEY, *field), self.bytes(12)
        right, others = nonce + id, [self.bytes(12) + id, nonce + self.id(), id, id + nonce]
        content = bytearray(b"\1" + id + nonce + model.F(rl, self.r.choice([right] * 8 + others)))
        if self.r.random() < 0.1:
            content[60] ^= 1
        return content

    def unlabelled(self, model, store):
        """Ids lose their rows in one of V and R."""
        t = tables(store)[self.r.choice("VR")]
        for i in used(store, t):
            if self.r.random() < 0.7:
                set_row(store, t, i, bytes(t.width))

    def repeat(self, model, store):
        """A row stands twice, or its tag does."""
        t, i = self.any_row(store)
        i = self.r.choice(used(store, t) or [i])
        j = self.r.randrange(t.rows)
        copy = bytearray(row(store, t, i))
        if self.r.random() < 0.3:
            copy[-1] ^= self.r.randint(0, 255)
        set_row(store, t, j, copy)

    def damage(self, model, store):
        t, i = self.any_row(store)
        at = t.start + t.width * i + self.r.randint(1, t.width - 1)
        store[at] ^= self.r.randint(1, 255)

    def swap(self, model, store):
        """V's ids or tags exchanged: an erase frees what another id names."""
        t, i = self.any_row(store, "V")
        j = self.r.randrange(t.rows)
        one, two = row(store, t, i), row(store, t, j)
        if one[0] == two[0] == 1:
            set_row(store, t, i, one[:17] + two[17:])

    def free_bytes(self, model, store):
        """A free row holds any bytes after its mark."""
        t, i = self.any_row(store)
        set_row(store, t, i, b"\0" + self.bytes(t.width - 1))

    def mark(self, model, store):
        t, i = self.any_row(store)
        store[t.start + t.width * i] = self.r.choice((1, 2, 3, 128, 255))

    def header(self, model, store):
        store[self.r.randrange(HEADER)] = self.r.choice((0, 1, 2, 15, 16, 17, 255))

    def other_header(self, model, store):
        """Version 1, and nothing else wrong; or r out of its range, with the length that fits it; or r and s exchanged."""
        kind, r = self.r.choice(("version", "none", "many", "exchanged")), tables(store)["R"]
        if kind == "version":
            store[0] = 1
        elif kind == "exchanged":
            store[6:10] = store[8:10] + store[6:8]
        else:
            rows = 0 if kind == "none" else scheme.MOST_ROWS + 1
            store[8:10] = rows.to_bytes(2, "big")
            store[r.start:] = bytes(r.width * rows)

    def length(self, model, store):
        if self.r.random() < 0.5:
            store.append(0)
        else:
            del store[self.r.choice((0, 5, HEADER - 1, HEADER, len(store) - 1)):]

    def noise(self, model, store):
        store[HEADER:] = bytes(self.r.choice((0, 1)) if self.r.random() < 0.1 else self.r.getrandbits(8)
                               for _ in range(len(store) - HEADER))

    def rows(self, model, store):
        """Any bytes behind good marks."""
        for t in tables(store).values():
            for i in range(t.rows):
                set_row(store, t, i, bytes([self.r.randrange(2)]) + self.bytes(t.width - 1))


def huge(model, store, call):
    """Whether a find would walk a count that was read as garbage: left out, for its time."""
    if not calls.has_output(call) or calls.first(model.store_conditions(store)):
        return False
    counts = [model.counts(store, model.counter_key(KEY, *field)) for field in calls.named_in(call)]
    return any(sum(found) > 100000 for found in counts if found is not None)


# What 20 stands before, and what stands before it: a store that both hold of.
WAITING = ("11 before 20", "20 before 12", "20 before 19", "20 before 13")


class Orders:
    """A tally of the stores in which another refusal waits behind 20, or 20 behind 11 [02:W2.12]."""

    def __init__(self):
        self.tally = dict.fromkeys(WAITING, 0)

    def call(self, model, store, kind, token, call, answer):
        if not isinstance(answer, calls.Refused) or answer.number not in (11, 20):
            return
        if answer.number == 11:
            self.tally["11 before 20"] += kind != "Order" and not form.in_form(store)
            return
        self.tally["20 before 12"] += kind == "Insert" and token[0] != store[1]
        s = tables(store)["S"]
        self.tally["20 before 19"] += kind == "Compact" and len(call.nonces) // 12 < len(used(store, s))
        if kind in ("Find", "Count"):
            self.tally["20 before 13"] += model.counts(store, token[-32:]) is None
        elif kind == "JointFind":
            self.tally["20 before 13"] += bool(damaged_parts(model, store, token))
        elif kind == "Insert":
            self.tally["20 before 13"] += model.read(store, token[65:97]) is None

    def too_seldom(self, least):
        return {way: n for way, n in self.tally.items() if n < least}

    def __str__(self):
        return ", ".join("%s %d times" % pair for pair in self.tally.items())


def damaged_parts(model, store, token):
    return [part for part in scheme.parts(token, calls.PART) if model.counts(store, part[64:96]) is None]


# What tests, joint finds and erases may meet in R, and no list of calls brings about.
MARKS = ("an id kept that the chosen part tests no for", "an id left out though the other part finds it",
         "the chosen part twice, and an id left out", "damage beside a sound part",
         "an erase of R rows where V has none", "an erase of V rows where R has none",
         "a test of an id with rows of other R marks alone", "a test of an id with its R mark and others")


class Marks:
    """A tally of these [02:W4.14 W4.17 W4.21 W4.22]."""

    def __init__(self):
        self.tally = dict.fromkeys(MARKS, 0)

    def call(self, model, store, kind, token, call, answer):
        if kind == "JointFind" and answer == calls.Refused(13, ()):
            self.tally["damage beside a sound part"] += len(damaged_parts(model, store, token)) < len(token) // calls.PART
        if not isinstance(answer, calls.Done):
            return
        if kind == "JointFind":
            self.joint_find(model, store, scheme.parts(token, calls.PART))
        elif kind in ("Erase", "Test"):
            v, r = ([x for x in used_rows(store, tables(store)[name]) if x[1:17] == call.id] for name in "VR")
            carry = [x for x in r if kind == "Test" and model.carries(x, token, call.id)]
            self.tally["an erase of R rows where V has none"] += kind == "Erase" and bool(r and not v)
            self.tally["an erase of V rows where R has none"] += kind == "Erase" and bool(v and not r)
            self.tally["a test of an id with rows of other R marks alone"] += kind == "Test" and bool(r and not carry)
            self.tally["a test of an id with its R mark and others"] += bool(carry) and len(carry) < len(r)

    def joint_find(self, model, store, given):
        sums = [sum(model.counts(store, part[64:96])) for part in given]
        at = sums.index(min(sums))
        found = [model.once(model.shares(store, part[:96])) if total < 1000 else [] for part, total in zip(given, sums)]
        yes = {id: [model.tests(store, part[96:], id) for part in given] for id in found[at]}
        others = {id: all(said[:at] + said[at + 1:]) for id, said in yes.items()}
        met = (any(others[id] and not said[at] for id, said in yes.items()),
               any(not others[id] and all(id in ids for ids in found) and len(set(given)) > 1 for id in yes),
               given.count(given[at]) > 1 and not all(others.values()))
        for kind, holds in zip(MARKS, met):
            self.tally[kind] += holds

    def too_seldom(self, least):
        return {way: n for way, n in self.tally.items() if n < least}

    def __str__(self):
        return ", ".join("%s %d times" % pair for pair in self.tally.items())


def check(seed, number_of, suite):
    """Runs `number_of` calls on broken stores, and a check of each; the tallies of what was told and met, or None at a fault."""
    drawn, tally, forms, orders, counts = Hostile(seed, suite), {}, form.Forms(), Orders(), looked.Looked()
    marks, model = Marks(), Scheme(suite)
    for i in range(number_of):
        store, call = drawn.draw()
        before = bytes(store)
        seen = model.check(store)
        fault = fault_of(calls.Check(), seen, None, before, bytes(store))
        if fault:
            print("FAULT %s: store %d, seed %d: %s" % (fault, i, seed, before.hex()))
            return None
        if huge(model, store, call):
            continue
        answer, output = model.call(store, call)
        key = (type(call).__name__, answer.number if isinstance(answer, calls.Refused) else "done")
        tally[key] = tally.get(key, 0) + 1
        fault = fault_of(call, answer, output, before, bytes(store))
        if key[0] == "Count" and key[1] in ("done", 13):
            fault = fault or counts.fault(model, before, model.token(call), answer)
        if fault:
            print("FAULT %s: list %d, seed %d: %r told %r" % (fault, i, seed, call, answer))
            return None
        if scheme.header(before) and not scheme.marks_wrong(before):
            forms.store(before)
        for tallied in (orders, marks):
            tallied.call(model, before, key[0], model.token(call), call, answer)
    return tally, forms, orders, marks, counts


def fault_of(call, answer, output, before, after):
    """What no store may change, or None."""
    kind = type(call).__name__
    if len(before) != len(after) or before[:HEADER] != after[:HEADER]:
        return "the header or the length changed"
    told_form = isinstance(answer, calls.Refused) and answer.number == 20
    past_marks = isinstance(answer, calls.Done) or answer.number > 11
    if past_marks and kind != "Order" and told_form == form.in_form(before):
        return "20 and the form of the store do not go together"
    if isinstance(answer, calls.Refused):
        if before != after and (kind, answer.number) != ("Compact", 13):
            return "a refusal changed the store"
        if output is not None and output != call.output:
            return "a refusal changed the output"
        if before == after:
            return None
    if kind in ("Find", "Count", "Test", "JointFind", "Check") and before != after:
        return "a reading call changed the store"
    if kind == "Check":
        return faults.fault_of(before, answer)
    if kind == "Count" and not 0 <= answer.values[1] <= looked.most(before):
        return "a count looked at more rows than it may"
    if kind == "Test" and answer.values[0] not in (0, 1):
        return "a test is neither yes nor no"
    if calls.has_output(call) and len(set(scheme.parts(output[:16 * answer.values[0]], 16))) < answer.values[0]:
        return "a find gave an id twice"
    if before != after and not form.in_form(after):
        return "a table is not in form"
    new, gone = {}, {}
    for name, t in tables(before).items():
        one, two = Counter(used_rows(before, t)), Counter(used_rows(after, t))
        new[name], gone[name] = (two - one).total(), (one - two).total()
    if kind == "Erase" and any(r[1:17] == call.id for name in "VR" for r in used_rows(after, tables(after)[name])):
        return "an erase left a row of the id"
    return rows_moved(kind, call, answer, new, gone)


def rows_moved(kind, call, answer, new, gone):
    """What a call may add and take away, by tables, repeats counted."""
    if kind == "Insert":
        j = len(call.ids) // 16
        if new != {"M": j, "V": j, "C": 1, "S": 1, "R": j} or any(gone.values()):
            return "an insert left other rows than its own"
    elif kind == "Erase":
        if any(new.values()) or gone["C"] or gone["S"] or gone["V"] != answer.values[0]:
            return "the answer is not the V rows freed, or a row came or went besides"
    elif kind == "Order":
        if any(new.values()) or any(gone.values()):
            return "an order kept other rows than it found"
    elif kind == "Compact":
        # An anchor may be a row that a counter was, where tags collide; no more rows come than anchors.
        anchors = answer.values[0] if isinstance(answer, calls.Done) else answer.carried[0]
        if any(new[name] for name in "MVSR") or any(gone[name] for name in "MVR") or new["C"] > anchors:
            return "a compaction left other rows than its anchors"
    return None
