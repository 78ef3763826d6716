"""A tally of the tests and joint finds in lists of calls, by kinds, so that a test knows that its lists tried each kind
often enough [02:W4.17 W4.18 W4.19 W4.20 W4.21 W4.23 W4.24 W4.25].
"""
from calls import Done, Erase, JointFind, Refused, Test, field_lengths_wrong, named_in

TESTS = ("yes", "no", "yes, of a share above 0", "yes, of an id with several entries", "no, another field has the id",
         "no, the id was erased", "yes, the id was erased and came again")
PARTS = tuple("%d parts" % n for n in range(1, 9))
FINDS = ("no part", "9 or 10 parts", "a refused part", "a refused part behind nine others", "two refused parts, by 1 and by 2",
         "equal parts", "a field never inserted", "the chosen part is not the first",
         "a tie, the later part has another order", "fewer ids listed in another part, which has another order",
         "some ids left out", "left out by the last part alone", "left out by the first part alone",
         "an id erased and inserted again", "entries erased in the chosen part", "repeats in the chosen part",
         "in another order than the first part", "room for the ids kept, not for the chosen part's", "just room",
         "a byte short", "three or more ids kept")
KINDS = TESTS + PARTS + FINDS


class Joint:
    def __init__(self):
        self.tally = dict.fromkeys(KINDS, 0)
        self.begin()

    def begin(self):
        """A list of calls begins."""
        self.erased = set()

    def call(self, ledger, call, answer):
        """A call of the list, with the ledger after it."""
        if isinstance(call, Erase) and isinstance(answer, Done) and answer.values[0] > 0:
            self.erased.add(call.id)
        met = {}
        if isinstance(call, Test) and isinstance(answer, Done):
            met = self.test(ledger, call, answer.values[0])
        elif isinstance(call, JointFind):
            met = refused_kinds(call, answer) if refused_early(answer) else self.find(ledger, call, answer)
        for kind, holds in met.items():
            self.tally[kind] += bool(holds)

    def test(self, ledger, call, said):
        entries = [(pair, ids.count(call.id)) for pair, ids in ledger.lists.items() if call.id in ids]
        of_field = [pair for pair, _ in entries if pair[:2] == (call.name, call.value)]
        met = {"yes": said, "no": not said, "yes, of a share above 0": said and all(pair[2] > 0 for pair in of_field),
               "yes, of an id with several entries": said and sum(n for _, n in entries) > 1,
               "no, another field has the id": not said and entries, "no, the id was erased": not said and call.id in self.erased,
               "yes, the id was erased and came again": said and call.id in self.erased}
        assert tuple(met) == TESTS
        return met

    def find(self, ledger, call, answer):
        """A joint find that was done, or refused by 18."""
        fields, done, room = named_in(call), isinstance(answer, Done), len(call.output)
        made = [ledger.number_made(*field) for field in fields]
        at = made.index(min(made))
        entries = [ledger.joined(*field) for field in fields]
        ids = [list(dict.fromkeys(listed)) for listed in entries]
        kept = [id for id in ids[at] if all(id in other for other in ids)]
        orders = [[id for id in listed if id in kept] for listed in ids]
        fewest = min(map(len, entries))

        def alone(i):
            """Whether an id is left out by this part and by no other."""
            return i != at and any(id not in ids[i] and all(id in other for k, other in enumerate(ids) if k != i) for id in ids[at])

        met = dict.fromkeys(PARTS, False)
        met["%d parts" % len(fields)] = True
        met.update({
            "equal parts": kept and len(set(fields)) < len(fields), "a field never inserted": len(fields) > 1 and 0 in made,
            "the chosen part is not the first": kept and at > 0,
            "a tie, the later part has another order":
                any(made[i] == made[at] and orders[i] != orders[at] for i in range(at + 1, len(fields))),
            "fewer ids listed in another part, which has another order":
                any(len(listed) == fewest < len(entries[at]) and order != orders[at] for listed, order in zip(entries, orders)),
            "some ids left out": kept and len(kept) < len(ids[at]), "left out by the last part alone": alone(len(fields) - 1),
            "left out by the first part alone": alone(0), "an id erased and inserted again": any(id in self.erased for id in kept),
            "entries erased in the chosen part": kept and len(entries[at]) < made[at],
            "repeats in the chosen part": any(entries[at].count(id) > 1 for id in kept),
            "in another order than the first part": orders[0] != orders[at],
            "room for the ids kept, not for the chosen part's": kept and done and room < 16 * len(ids[at]),
            "just room": kept and done and room == 16 * len(kept), "a byte short": not done and room == 16 * len(kept) - 1,
            "three or more ids kept": len(kept) > 2})
        assert set(met) <= set(KINDS)
        return met

    def too_seldom(self, least):
        """The kinds that came less often than that."""
        return {kind: n for kind, n in self.tally.items() if n < least}

    def __str__(self):
        return "tests and joint finds " + ", ".join("%s %d" % (kind, n) for kind, n in self.tally.items())


def refused_early(answer):
    return isinstance(answer, Refused) and answer.number != 18


def refused_kinds(call, answer):
    n, lengths = len(call.parts), {len(part.key) for part in call.parts}
    return {"no part": n == 0, "two refused parts, by 1 and by 2": lengths - {32} and any(
        len(part.key) == 32 and field_lengths_wrong(part.name, part.value) for part in call.parts),
            "9 or 10 parts": answer.number == 6 and n > 8, "a refused part": answer.number in (1, 2),
            "a refused part behind nine others": answer.number in (1, 2) and n == 10}
