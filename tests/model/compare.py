"""Random lists of calls on store and ledger: document 01, 'The ledger', last paragraph.

Each call's answer, or refusal with what it carries, and a find's whole output are compared;
exit status 1 at the first difference, with the list of calls. `--mutants` shows that the
comparison can fail: each deliberately wrong version has to be caught. Whole lists, from a fresh
store of any sizes [01:LG2 LG5 LG6 LG14 LG15 LG17 LG18 LG19]; ids with several entries in each way that a find may
meet them [02:W1.1 W1.2 W1.3 W1.4 W1.5 W1.6]; rows in byte order after every call [02:W2.1 W2.2 W2.3 W2.4 W2.5], and
stores with rows in any place, put in form on the way [02:W2.6 W2.7 W2.8 W2.10]; then counts, with the rows looked at
[02:W3.1 W3.2 W3.3 W3.4 W3.5 W3.6 W3.7 W3.8 W3.11 W3.12]; tests and joint finds of 1 to 8 parts [02:W4.17 W4.26]; a check
after every fifth call of a list and at its end, which tells 0 of each [check:10], and checks of stores with faults [check:1 check:2 check:3
check:4 check:5 check:6 check:7 check:8].
"""
import argparse
import random
import sys
import time

import examples
import faults
import form
import hostile
import looked
import placing
import scheme
import version1
from calls import (Check, Compact, Count, Done, Erase, Find, Insert, JointFind, Order, Part, Refused, Test, compared,
                   field_lengths_wrong, named_in, nonce_bytes)
from joint import Joint
from ledger import Ledger
from primitives import Cheap, Real
from repeats import Repeats

# What the lookups of counts meet in lists often; the rest is met on stores made for counts.
IN_LISTS = ("no used row", "below all rows", "above all rows", "between two rows", "at the first row", "at the last row", "c anchors held",
            "c counters held", "a counter after an anchor", "several shares with rows")

FIELDS = [(b"hue", b"red"), (b"ab", b"c"), (b"a", b"bc"), (b"a", b""), (b"n" * 128, b"v" * 7), (b"hue", b"blue"),
          (b"branch", b"North"), (b"month", b"2024-05")]
NEVER = (b"never", b"inserted")
WRONG_FIELDS = [(b"", b"c"), (b"n" * 256, b""), (b"a", b"v" * 1025)]


class Lists:
    """Random lists of calls over small tables, drawn from one seed."""

    def __init__(self, seed, longest):
        self.r = random.Random(seed)
        self.longest = longest

    def bytes(self, n):
        return bytes(self.r.getrandbits(8) for _ in range(n))

    def nonce_bytes(self, n):
        """Any nonces at all: drawn, or all equal."""
        return self.bytes(n) if self.r.random() < 0.7 else bytes([self.r.choice((0, 255))]) * n

    def near(self, n):
        """Mostly n; now and then one less, one more or 0: wrong lengths."""
        return n if self.r.random() < 0.95 else self.r.choice((0, max(n - 1, 0), n + 1))

    def draw(self):
        """The store's p, m, c, s, r, the key and the list."""
        r = self.r
        self.p = r.choice((0, 0, 1, 1, 2, 15))
        self.sizes = tuple(r.randint(1, 6) for _ in range(4))
        fields, ids, reads, shape = r.randint(1, 3), r.randint(1, 6), (2, 2), r.random()
        if shape < 0.25:
            # Room for many entries, so that counters and anchors decide.
            self.sizes = self.with_marks(r.randint(6, 70), *self.sizes[1:3])
        elif shape < 0.5:
            # Room for many inserts, so that ids come to have several entries.
            self.sizes = self.with_marks(*(r.randint(6, 20) for _ in range(3)))
        elif shape < 0.8:
            # Few ids in several fields, so that joint finds have something in common.
            self.p, fields, ids, reads = r.choice((0, 1, 1, 2)), r.choice((2, 2, 3, 3, 4, 8)), r.randint(2, 5), (4, 16)
            self.sizes = self.with_marks(r.randint(20, 70), r.randint(8, 30), r.randint(8, 30))
        self.key = self.bytes(32)
        self.fields = r.sample(FIELDS, fields)
        self.ids = self.some_ids(ids)
        self.given, self.erased, self.alone = [], [], []
        self.weights = [r.choice((4, 8)), r.choice((1, 4)), 4, 2, r.choice((1, 3)), r.choice((0, 1, 1)), *reads]
        self.together = reads[1] > 2
        begin = [self.shared_ids(field) for field in self.fields] if self.together else []
        if r.random() < 0.4:
            # A field that had the most entries may come to have the fewest.
            begin += [Erase(id) for id in self.alone]
            self.alone = []
        return with_checks(begin + [self.call() for _ in range(r.randint(1, max(1, self.longest - len(begin))))])

    def shared_ids(self, field):
        """An insert of most of the ids, in any order, and now and then of some that no other field has."""
        ids = self.r.sample(self.ids, self.r.randint(len(self.ids) - 1, len(self.ids)))
        if self.r.random() < 0.5:
            alone = [self.bytes(16) for _ in range(self.r.randint(1, 3))]
            self.alone += alone
            ids += alone
        return Insert(self.key, *field, self.p, self.r.randint(0, self.p), self.bytes(12), self.bytes(nonce_bytes(len(ids))), b"".join(ids))

    def with_marks(self, m, c, s):
        """With r: mostly room for as many ids as M has, or for fewer."""
        return m, c, s, self.r.choice((m, m, m + 3, self.r.randint(1, m)))

    def some_ids(self, n):
        """Ids that have nothing in common; that differ from the first in one byte; or multiples of a number, as
        fall into one bucket of a hash table."""
        kind = self.r.random()
        if kind < 0.4:
            return [self.bytes(16) for _ in range(n)]
        if kind < 0.6:
            return [(4093 * self.r.randint(0, 9) << self.r.choice((0, 64))).to_bytes(16, "big") for _ in range(n)]
        result = [self.bytes(16)]
        while len(result) < n:
            changed = bytearray(result[0])
            changed[self.r.randrange(16)] ^= self.r.choice((1, 128, 255))
            result.append(bytes(changed))
        return result

    def any_key(self):
        """K, or a key of a length that 1 refuses [01:LG17]."""
        return self.key if self.r.random() < 0.98 else self.key[:self.r.choice((0, 31))]

    def field(self):
        return self.r.choice(self.fields if self.r.random() < 0.97 else WRONG_FIELDS)

    def call(self):
        kind = self.r.choices((self.insert, self.erase, self.find, self.count, self.compact, Order, self.test, self.joint_find),
                              self.weights)[0]
        return kind()

    def insert(self):
        r = self.r
        p = self.p if r.random() < 0.96 else r.choice((0, 3, 16, 257))
        u = r.randint(0, min(p, 2)) if r.random() < 0.96 else r.choice((p, p + 1))
        most = self.sizes[0] + 1 if r.random() < 0.1 else min(3, self.sizes[0])
        j = r.choice((r.randint(1, most), 1, r.choice((0, 64, 65)) if r.random() < 0.1 else 1))
        ids = self.inserted(j)
        ids = ids[:self.near(len(ids))]
        return Insert(self.any_key(), *self.field(), p, u, self.nonce_bytes(self.near(12)),
                      self.nonce_bytes(self.near(nonce_bytes(len(ids) // 16))), ids)

    def inserted(self, j):
        """The ids of an insert: any; those of an earlier insert once more, as of a client that lost its
        connection; with one that was erased before."""
        r = self.r
        if self.given and r.random() < 0.2:
            return r.choice(self.given)
        ids = [r.choice(self.ids) for _ in range(j)]
        if ids and self.erased and r.random() < 0.4:
            ids[r.randrange(j)] = r.choice(self.erased)
        self.given.append(b"".join(ids))
        return self.given[-1]

    def erase(self):
        id = self.alone.pop() if self.alone and self.r.random() < 0.85 else self.any_id()
        self.erased.append(id)
        return Erase(self.near_id(id))

    def any_id(self):
        return self.r.choice(self.ids) if self.r.random() < 0.9 else self.bytes(16)

    def near_id(self, id):
        """Mostly the id; now and then of a length that 5 refuses."""
        return id if self.r.random() < 0.97 else (id + id)[:self.near(17)]

    def output(self):
        r = self.r
        most = self.sizes[0]
        room = r.choice((16 * (most + 1), 16 * (most + 1), 16 * r.randint(0, most), 16 * r.randint(0, min(4, most)),
                         16 * r.randint(0, min(6, most)), 16 * (len(self.ids) - r.randint(0, 1)), 16 * r.randint(1, 4) - 1,
                         r.randint(0, 16 * most)))
        return self.bytes(room)

    def find(self):
        return Find(self.any_key(), *self.field(), self.output())

    def test(self):
        id = self.r.choice(self.erased) if self.erased and self.r.random() < 0.2 else self.any_id()
        return Test(self.any_key(), *self.field(), self.near_id(id))

    def joint_find(self):
        """1 to 8 parts, of which some may be equal; now and then none, or more than 8; a key or a field that is refused in
        one or two of them, in the last where there are too many."""
        r = self.r
        n = r.choice((1, 2, 2, 2, 3, 3, 3, 4, 5, 6, 7, 8)) if r.random() < 0.94 else r.choice((0, 9, 10, 10))
        fields = r.sample(self.fields, n) if n <= len(self.fields) and r.random() < 0.7 else [r.choice(self.fields) for _ in range(n)]
        parts = [Part(self.key, *(NEVER if r.random() < 0.03 else field)) for field in fields]
        if parts and r.random() < (0.5 if n > 8 else 0.08):
            for at in [n - 1] if n > 8 else r.choices(range(n), k=r.choice((1, 2, 2))):
                wrong = parts[at]._replace(key=self.key[:r.choice((0, 31))])
                parts[at] = r.choice((wrong, Part(self.key, *r.choice(WRONG_FIELDS))))
        return JointFind(parts, self.output())

    def count(self):
        return Count(self.any_key(), *self.field())

    def compact(self):
        nonces = self.sizes[2] if self.r.random() < 0.7 else self.r.randint(0, self.sizes[2])
        return Compact(self.any_key(), self.nonce_bytes(self.near(12 * nonces)))


def with_checks(calls):
    """The list with a check after every fifth call and at its end [check:10]."""
    result = [call for at, call in enumerate(calls) for call in ([call, Check()] if at % 5 == 4 else [call])]
    return result + [Check()]


def tags_differ(model, key, p, calls):
    """The premise: the tags of all pairs named in the list differ, in each table [01:LG13], and R marks of different labels
    named for each nonce and id in it [02:W4.27]."""
    n = len(calls)
    named = {field for c in calls for field in named_in(c) if not field_lengths_wrong(*field)}
    entries, counters = set(), set()
    pairs = [field + (u,) for field in named for u in range(p + 1)]
    for name, value, u in pairs:
        token = model.insert_token(key, name, value, p, u, bytes(12))
        mt, ct = token[1:33], model.F(token[65:97], scheme.number(1))
        entries.update(model.F(mt, scheme.number(a)) for a in range(1, 64 * n + 1))
        for kind in (b"\1", b"\2"):
            counters.update(model.F(ct, kind + scheme.number(a)) for a in range(1, n + 2))
    keys = [model.mark_key(key, *field) for field in named]
    marks = all(len({model.r_mark(rl, *marked) for rl in keys}) == len(keys) for c in calls if isinstance(c, Insert)
                for marked in zip(scheme.parts(c.nonces[12 * (len(c.ids) // 16 + 1):], 12), scheme.parts(c.ids, 16)))
    return marks and len(entries) == 64 * n * len(pairs) and len(counters) == 2 * (n + 1) * len(pairs)


class Difference(Exception):
    pass


def told(pair):
    """An answer and a find's output, for a message."""
    return "%r %s" % (pair[0], "" if pair[1] is None else pair[1].hex())


def run_list(calls, stores, ledger, tell=None, alike=None, rows=None):
    """One list on each store (a model and its bytes) and on the ledger; `alike` tells how the stores differ, `rows` what is wrong
    with the whole answer of a count by the first."""
    for at, call in enumerate(calls):
        wanted = ledger.call(call)
        if tell:
            tell(ledger, call, wanted)
        for model, store in stores:
            before = bytes(store)
            answer, output = model.call(store, call)
            got = compared(call, answer), output
            if got != wanted:
                raise Difference("call %d: the store tells %s, the ledger %s"
                                 % (at, told(got), told(wanted)))
            if isinstance(got[0], Refused) and bytes(store) != before:
                raise Difference("call %d: refused, and the store changed" % at)
        found = alike and alike([store for _, store in stores])
        model, store = stores[0]
        if rows and isinstance(call, Count) and isinstance(wanted[0], Done):
            found = found or rows(model, bytes(store), model.token(call), model.count(store, model.token(call)))
        if found:
            raise Difference("call %d: %s" % (at, found))


def stores_alike(stores):
    """The store is in form; a step under any placing, between two orders, leaves the same bytes [02:W2.5]; a store that
    was filled under any placing and an order puts in form has the same rows."""
    now, between, moved = stores
    if not form.in_form(now):
        return "a table is not in form"
    if now != between:
        return "an order after another placing leaves other bytes"
    if rows_of(now) != rows_of(moved):
        return "a store under another placing has other rows"
    return None


def rows_of(store):
    """Each table's used rows, sorted. Of a C row the mark and the tag: under another placing S has another order, and an
    anchor's nonce depends on it."""
    return {name: sorted(r[:33 if name == "C" else t.width] for r in scheme.used_rows(store, t))
            for name, t in scheme.tables(store).items()}


def two_histories(r, suite, build=None):
    """Inserts in two orders, those of one field, value and share in the same one, and an order between: the rows are the
    same, and so the bytes are [02:W2.5]. How many inserts changed places, or a fault."""
    p, sizes, key = r.choice((0, 1, 3)), (40, 12, 12, 40), r.randbytes(32)
    made = []
    for _ in range(r.randint(2, 12)):
        j = r.choice((1, 2, 3))
        made.append(Insert(key, *r.choice(FIELDS), p, r.randint(0, p), r.randbytes(12), r.randbytes(nonce_bytes(j)),
                           r.randbytes(16 * j)))
    queues = {}
    for call in made:
        queues.setdefault((call.name, call.value, call.u), []).append(call)
    turns = [pair for pair, queue in queues.items() for _ in queue]
    r.shuffle(turns)
    queues = {pair: iter(queue) for pair, queue in queues.items()}
    other = [next(queues[pair]) for pair in turns]
    stores = []
    for history in (made, other):
        model, store = build() if build else scheme.Scheme(suite), bytearray(scheme.length_of(*sizes))
        model.make(store, p, *sizes)
        for call in history:
            if not isinstance(model.call(store, call)[0], Done):
                return "an insert was refused"
            if r.random() < 0.2 and not isinstance(model.order(store), Done):
                return "an order was refused"
        stores.append(bytes(store))
    return sum(x != y for x, y in zip(made, other)) if stores[0] == stores[1] else "two histories leave other bytes"


def short(value):
    """Bytes as hex, long ones by their length and start; the seed gives them whole."""
    if isinstance(value, list):
        return "[%s]" % "; ".join(", ".join(map(short, part)) for part in value)
    if not isinstance(value, bytes):
        return str(value)
    return value.hex() if len(value) <= 8 else "%s..[%d]" % (value[:4].hex(), len(value))


def show(lists, calls, difference, where):
    print("DIFFERENCE in %s: %s" % (where, difference))
    print("p = %d, m, c, s, r = %r, key %s" % (lists.p, lists.sizes, lists.key.hex()))
    for at, call in enumerate(calls):
        arguments = ", ".join("%s %s" % (k, short(v)) for k, v in call._asdict().items())
        print("  %d: %s: %s" % (at, type(call).__name__, arguments))


def stores_for(builders, lists):
    result = []
    for model in builders:
        store = bytearray(scheme.length_of(*lists.sizes))
        model.make(store, lists.p, *lists.sizes)
        result.append((model, store))
    return result


def compare(suite, seed, number, longest, premise):
    """`number` lists over one suite; a tally of what was told, one of repeats and one of tests and joint finds, or None at a
    difference."""
    lists, tally, repeats, joint, began, shown = Lists(seed, longest), {}, Repeats(), Joint(), time.time(), time.time()
    met = looked.Looked()

    def tell(ledger, call, said):
        answer = said[0].number if isinstance(said[0], Refused) else "done"
        key = (type(call).__name__, answer)
        tally[key] = tally.get(key, 0) + 1
        repeats.call(ledger, call, said[0])
        joint.call(ledger, call, said[0])

    for i in range(number):
        calls = lists.draw()
        repeats.begin()
        joint.begin()
        place = placing.random_place(random.Random(seed + i)) if i % 2 else placing.lowest
        models = [scheme.Scheme(suite), placing.Between(suite, place), placing.Moved(suite, place)]
        try:
            if i % premise == 0 and not tags_differ(models[0], lists.key, lists.p, calls):
                raise Difference("the premise's tags do not differ")
            run_list(calls, stores_for(models, lists), Ledger(lists.p, *lists.sizes), tell, stores_alike, met.fault)
        except Difference as difference:
            show(lists, calls, difference, "list %d, seed %d" % (i, seed))
            return None
        if time.time() - shown > 10:
            shown = time.time()
            print("  %s suite: %d of %d lists" % (suite.name, i + 1, number), flush=True)
    print("%s suite: %d lists alike, %d calls, %.1f s"
          % (suite.name, number, sum(tally.values()), time.time() - began), flush=True)
    print("%s suite: %s" % (suite.name, repeats), flush=True)
    print("%s suite: %s" % (suite.name, joint), flush=True)
    print("%s suite: counts: %d rows looked at, %d at most" % (suite.name, met.rows, met.greatest), flush=True)
    if number >= 1000 and min(met.tally[kind] for kind in IN_LISTS) < number // 40:
        print("NOT TRIED OFTEN ENOUGH, %d times: %s" % (number // 40, met.tally))
        return None
    return tally, repeats, joint


def all_told(tally, repeats, joint, least):
    """Every answer that a list can come to was come to, so that no rule went untried; and each kind of
    repeats, of tests and of joint finds was met as often as `least` says."""
    wanted = {"Insert": (1, 2, 3, 4, 5, 12, 15, 16, 17, 21), "Erase": (5,), "Find": (1, 2, 18),
              "Count": (1, 2), "Compact": (1, 4, 19), "Order": (), "Test": (1, 2, 5), "JointFind": (1, 2, 6, 18), "Check": ()}
    missing = [(kind, n) for kind, numbers in wanted.items() for n in ("done",) + numbers
               if not tally.get((kind, n))]
    if missing:
        print("NOT TRIED", missing)
    seldom = {**repeats.too_seldom(least), **joint.too_seldom(least)}
    if seldom:
        print("NOT TRIED OFTEN ENOUGH, %d times: %s" % (least, seldom))
    return not missing and not seldom


def hostile_stores(given):
    """The model's operations on hostile stores hold to what no store may change; every way of being out of form was
    met in every table."""
    tallies = hostile.check(given.seed, given.hostile, Cheap)
    if tallies is None:
        return 1
    tally, forms, orders, marks, counts = tallies
    told_numbers = sorted({n for _, n in tally if n != "done"})
    print("hostile stores: %d calls, told %s, %s, %s, %s, %d rows looked at by counts" % (
        sum(tally.values()), told_numbers, forms, orders, marks, counts.rows), flush=True)
    missing = set(range(10, 22)) - set(told_numbers)
    seldom = {**forms.too_seldom(given.hostile // 3000), **orders.too_seldom(given.hostile // 1500),
              **marks.too_seldom(given.hostile // 900)}
    if given.hostile >= 6000 and (missing or seldom):
        print("NOT TRIED %s %s" % (sorted(missing), seldom))
        return 1
    return 0


def made_stores(what, checker, wanted, often, given):
    """Stores made for a call: what `checker` says of them, and that each kind was met, at least once in so many."""
    for suite, number in ((Cheap, wanted), (Real, wanted // 10)):
        met = checker(given.seed, number, suite)
        if isinstance(met, str):
            print("%s: %s" % (what, met))
            return 1
        print("%s, %s suite: %d stores, %s" % (what, suite.name, number, met), flush=True)
        seldom = met.too_seldom(number // often)
        if number >= 1000 and seldom:
            print("NOT TRIED OFTEN ENOUGH, %d times: %s" % (number // often, seldom))
            return 1
    return 0


def counts(given):
    """Counts on stores made for them: the rows looked at, their bound, every kind of lookup."""
    return made_stores("counts", looked.check, given.counts, 200, given)


def checks(given):
    """Checks of stores with faults: the numbers are those of counting, and every kind of store was met."""
    return made_stores("checks", faults.check, given.faults, 500, given)


def other_stores(given):
    """Stores with rows in any place, two histories, and stores of version 1."""
    number = max(given.lists // 4, 40)
    out = placing.check(given.seed, number, Cheap)
    if isinstance(out, str) or out < number // 2:
        print("rows in any place: %s" % out)
        return 1
    r, moved = random.Random(given.seed), []
    while len(moved) < number:
        moved.append(two_histories(r, Cheap))
        if isinstance(moved[-1], str):
            print("two histories: %s, number %d, seed %d" % (moved[-1], len(moved), given.seed))
            return 1
    fault = version1.check(scheme.Scheme(Real))
    if fault:
        print("stores of version 1: %s" % fault)
        return 1
    print("rows in any place: %d stores, %d of them out of form; two histories: %d pairs, %d inserts in another place;"
          " stores of version 1: %d, each call refused by 10" % (number, out, number, sum(moved), len(version1.stores())), flush=True)
    return 0


def main():
    options = argparse.ArgumentParser(description=__doc__)
    options.add_argument("--lists", type=int, default=2000, help="lists over the cheap suite")
    options.add_argument("--real", type=int, help="lists over the real suite (a tenth)")
    options.add_argument("--seed", type=int, default=1)
    options.add_argument("--longest", type=int, default=40, help="most calls in a list")
    options.add_argument("--premise", type=int, default=10,
                         help="the premise's tags are computed for one list in this many")
    options.add_argument("--hostile", type=int, default=9000, help="calls on hostile stores")
    options.add_argument("--counts", type=int, default=3000, help="stores made for counts")
    options.add_argument("--faults", type=int, default=6000, help="stores made for checks")
    options.add_argument("--mutants", action="store_true", help="wrong versions are caught")
    given = options.parse_args()
    examples.all_examples()
    print("L1 to L6, G1 to G8, ids with several entries, rows in byte order, rows that a count looks at, tests, joint finds,"
          " checks and the forged stores: as the papers say", flush=True)
    if given.mutants:
        import mutants
        return mutants.caught(given)
    real = given.lists // 10 if given.real is None else given.real
    for suite, number in ((Cheap, given.lists), (Real, real)):
        told_all = compare(suite, given.seed, number, given.longest, given.premise)
        if told_all is None or (number >= 1000 and not all_told(*told_all, number // 40)):
            return 1
    return counts(given) or checks(given) or other_stores(given) or hostile_stores(given)


if __name__ == "__main__":
    sys.exit(main())
