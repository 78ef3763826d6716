"""A tally of the finds that met ids with more than one entry, by kinds, so that a test knows that its lists
tried each kind often enough [02:W1.1 W1.2 W1.3].
"""
from calls import Done, Erase, Find, Refused

KINDS = ("in a share", "across shares", "side by side", "apart", "another order by last places",
         "one byte apart", "after an erase", "room for ids, not for entries", "just room for ids",
         "16 bytes short of ids")


class Repeats:
    def __init__(self):
        self.tally = dict.fromkeys(KINDS, 0)
        self.begin()

    def begin(self):
        """A list of calls begins."""
        self.erased = set()

    def call(self, ledger, call, answer):
        """A call of the list, with the ledger after it."""
        if isinstance(call, Erase) and isinstance(answer, Done) and answer.values[0] > 0:
            self.erased.add(call.id)
        if isinstance(call, Find):
            shares = [ledger.lists.get((call.name, call.value, u), []) for u in range(ledger.p + 1)]
            self.find(shares, answer, len(call.output))

    def find(self, shares, answer, room):
        """A find: for each share the ids of its entries, the answer, the output's length."""
        if isinstance(answer, Refused) and answer.number != 18:
            return
        for kind in kinds(shares, self.erased, isinstance(answer, Done), room):
            self.tally[kind] += 1

    def too_seldom(self, least, but=()):
        """The kinds that came less often than that."""
        return {kind: n for kind, n in self.tally.items() if n < least and kind not in but}

    def __str__(self):
        return "repeats " + ", ".join("%s %d" % (kind, n) for kind, n in self.tally.items())


def kinds(shares, erased, done, room):
    """The kinds of a find that was not refused by another number than 18."""
    joined = [id for ids in shares for id in ids]
    first, last = places(joined), places(joined[::-1])
    if len(first) == len(joined):
        return []
    again = [at for at, id in enumerate(joined) if first[id] != at]
    wanted = 16 * len(first)
    met = {"in a share": any(len(ids) > len(set(ids)) for ids in shares),
           "across shares": sum(len(set(ids)) for ids in shares) > len(first),
           "side by side": any(joined[at - 1] == joined[at] for at in again),
           "apart": any(joined[at - 1] != joined[at] for at in again),
           "another order by last places": list(first) != list(last)[::-1],
           "one byte apart": any(one_byte_apart(x, y) for x in list(first)[:20] for y in list(first)[:200]),
           "after an erase": any(joined[at] in erased for at in again),
           "room for ids, not for entries": done and room < 16 * len(joined),
           "just room for ids": done and room == wanted,
           "16 bytes short of ids": not done and room == wanted - 16}
    assert tuple(met) == KINDS
    return [kind for kind, holds in met.items() if holds]


def places(ids):
    """The first place of each id, in order."""
    result = {}
    for at, id in enumerate(ids):
        result.setdefault(id, at)
    return result


def one_byte_apart(x, y):
    return sum(a != b for a, b in zip(x, y)) == 1
