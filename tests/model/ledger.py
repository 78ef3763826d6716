"""The ledger of document 01, 'The ledger', from its paragraph alone, with requests 1, 2 and 4 of
document 02; request 3 changes nothing in it.

It is fed each call's raw arguments and never an answer or a byte of the store [01:LG3]; with
the store it shares the form of an answer and the conditions 1 to 6 [01:LG4].
"""
import calls
from calls import Done, Refused, first

GREATEST = 4294967295


class Ledger:
    def __init__(self, p, m, c, s, r):
        self.p, self.m, self.c, self.s, self.r = p, m, c, s, r
        self.lists = {}      # (name, value, u): the ids, in order [01:LG1]
        self.made = {}       # (name, value, u): how many were ever made
        self.inserts = 0     # W: accepted inserts since the last compaction
        self.touched = set()  # T: the pairs they touched
        self.anchors = 0     # A

    def total(self):
        """H, the total of ids in lists."""
        return sum(len(ids) for ids in self.lists.values())

    def call(self, call):
        """What the ledger tells of a call: its answer, and a find's whole output or None."""
        if isinstance(call, calls.Insert):
            return self.insert(call), None
        if isinstance(call, calls.Erase):
            return self.erase(call), None
        if isinstance(call, calls.Find):
            return self.find(call)
        if isinstance(call, calls.Count):
            return self.count(call), None
        if isinstance(call, calls.Order):
            return self.order(), None
        if isinstance(call, calls.Check):
            return self.check(), None
        if isinstance(call, calls.Test):
            return self.test(call), None
        if isinstance(call, calls.JointFind):
            return self.joint_find(call)
        return self.compact(call), None

    def insert(self, call):
        pair = (call.name, call.value, call.u)
        j = len(call.ids) // 16
        refused = first(self.insert_conditions(call, pair, j))
        if refused:
            return refused
        ids = [call.ids[16 * i:16 * i + 16] for i in range(j)]
        self.lists[pair] = self.lists.get(pair, []) + ids
        self.made[pair] = self.made.get(pair, 0) + j
        self.inserts += 1
        self.touched.add(pair)
        return Done((self.made[pair],))

    def insert_conditions(self, call, pair, j):
        """[01:LG7]"""
        yield from calls.insert_token_conditions(call.key, call.name, call.value, call.p, call.u,
                                                 call.nonce)
        yield from calls.insert_conditions(calls.INSERT_TOKEN, call.nonces, call.ids)
        yield 12, call.p != self.p
        yield 14, self.made.get(pair, 0) + j > GREATEST
        yield 15, self.total() + j > self.m
        yield 16, self.no_counter_room()
        yield 17, self.inserts + 1 > self.s
        yield 21, self.total() + j > self.r  # [02:W4.29 W4.30]

    def no_counter_room(self):
        return self.anchors + self.inserts + 1 > self.c

    def erase(self, call):
        """[01:LG9]"""
        refused = first(calls.erase_conditions(call.id))
        if refused:
            return refused
        before = self.total()
        for pair, ids in self.lists.items():
            self.lists[pair] = [id for id in ids if id != call.id]
        return Done((before - self.total(),))

    def find(self, call):
        """[01:LG10], [01:LG14], [02:W1.3 W1.5]"""
        refused = first(calls.field_token_conditions(call.key, call.name, call.value))
        if refused:
            return refused, call.output
        return self.given(self.without_later_repeats(self.joined(call.name, call.value)), call.output)

    def given(self, found, output):
        """These ids at the start of the output, or 18."""
        if len(output) < 16 * len(found):
            return Refused(18, (len(found),)), output
        return Done((len(found),)), b"".join(found) + output[16 * len(found):]

    def joined(self, name, value):
        """The lists for u = 0 to p, one after the other."""
        return [id for u in range(self.p + 1) for id in self.lists.get((name, value, u), [])]

    def without_later_repeats(self, ids):
        """Each id that stands nowhere before its place."""
        return [id for at, id in enumerate(ids) if ids.index(id) == at]

    def count(self, call):
        """[01:LG11]"""
        refused = first(calls.field_token_conditions(call.key, call.name, call.value))
        return refused or Done((self.number_made(call.name, call.value),))

    def number_made(self, name, value):
        return sum(self.made.get((name, value, u), 0) for u in range(self.p + 1))

    def compact(self, call):
        """[01:LG12]"""
        refused = first(self.compact_conditions(call))
        if refused:
            return refused
        pairs, inserts = self.pairs_touched(), self.inserts
        self.anchors += pairs
        self.inserts = 0
        self.touched = set()
        return Done((pairs, inserts))

    def pairs_touched(self):
        return len(self.touched)

    def compact_conditions(self, call):
        yield from calls.compact_token_conditions(call.key)
        yield from calls.compact_conditions(calls.COMPACT_TOKEN, call.nonces)
        yield 19, len(call.nonces) // 12 < self.inserts

    def order(self):
        """How many used rows there are [02:W2.8]: of M, V and R one for each id in lists [02:W4.13], of C the anchors and a
        counter for each insert, of S a row for each insert. Nothing changes, and 20 never comes [02:W2.10]."""
        return Done((3 * self.total() + self.anchors + 2 * self.inserts,))

    def check(self):
        """It has no rows, so none that do not go together: every list of calls leaves 0 of each [check:10]."""
        return Done((0,) * 7)

    def test(self, call):
        """1 where the id is in a list of that field and value, whatever its u [02:W4.17]."""
        refused = first(self.test_conditions(call))
        return refused or Done((int(self.listed(call.id, call.name, call.value)),))

    def test_conditions(self, call):
        yield from calls.field_token_conditions(call.key, call.name, call.value)
        yield from calls.test_conditions(call.id, calls.MARK_TOKEN)

    def listed(self, id, name, value):
        return any(id in ids for pair, ids in self.lists.items() if pair[:2] == (name, value))

    def joint_find(self, call):
        """The ids that all parts' lists have, in the order of the find of the chosen one [02:W4.26]; 18 by those
        [02:W4.23]."""
        refused = first(self.joint_find_conditions(call))
        if refused:
            return refused, call.output
        fields = calls.named_in(call)
        ids = self.without_later_repeats(self.joined(*self.chosen(fields)))
        return self.given([id for id in ids if all(self.listed(id, *field) for field in fields)], call.output)

    def joint_find_conditions(self, call):
        """All parts are made before 6 is judged by their number [02:W4.18 W4.24 W4.25]."""
        yield from calls.parts_conditions(call.parts)
        yield from calls.joint_find_conditions(calls.PART * len(call.parts))

    def chosen(self, fields):
        """The field with the least number made [02:W4.19], the earlier on a tie [02:W4.20]."""
        least = min(self.number_made(*field) for field in fields)
        return next(field for field in fields if self.number_made(*field) == least)
