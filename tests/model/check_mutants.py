"""What the check could be taken for: wrong versions of its numbers and refusals in the store, and of the ledger's zeros.
mutants.py holds each against the stores written by hand and the drawn ones of faults.py, and those that go wrong on a store
that calls made against the lists of calls.
"""
from bisect import bisect_left
from collections import Counter

import scheme
from calls import Done, Refused
from ledger import Ledger
from scheme import Scheme, row, tables, used_rows


def other_lists(change, names=("entries", "counters", "tags", "ids", "labelled")):
    """A wrong version in which some of the five lists are others."""
    class Wrong(Scheme):
        def tags(self, store, name):
            found = super().tags(store, name)
            return change(found) if {"M": "entries", "C": "counters"}[name] in names else found

        def reverse_tags(self, store):
            found = super().reverse_tags(store)
            return change(found) if "tags" in names else found

        def reverse_ids(self, store):
            found = super().reverse_ids(store)
            return change(found) if "ids" in names else found

        def labelled_ids(self, store):
            found = super().labelled_ids(store)
            return change(found) if "labelled" in names else found
    return Wrong


def other_parts(cut, names=("entries", "counters", "tags", "ids", "labelled")):
    """A wrong version that compares another part of tags or ids."""
    return other_lists(lambda found: [cut(x) for x in found], names)


class TagsOnThirtyOneBytes(other_parts(lambda x: x[:31], ("entries", "counters", "tags"))):
    pass


class RepeatedTagsOnThirtyOneBytes(Scheme):
    def again(self, tags):
        return super().again([tag[:31] for tag in tags])


class LackingTagsOnThirtyOneBytes(Scheme):
    def lacking(self, these, others):
        return super().lacking([x[:31] for x in these], [x[:31] for x in others])


class TagsWithoutFirstByte(other_parts(lambda x: x[1:], ("entries", "counters", "tags"))):
    pass


class TagsOnEightBytes(other_parts(lambda x: x[:8])):
    pass


class IdsOnFifteenBytes(other_parts(lambda x: x[:15], ("ids", "labelled"))):
    pass


class IdsWithoutFirstByte(other_parts(lambda x: x[1:], ("ids", "labelled"))):
    pass


class LastRowsLeftOut(other_lists(lambda found: found[:-1])):
    pass


class LastEntryLeftOut(other_lists(lambda found: found[:-1], ("entries",))):
    pass


class LastCounterLeftOut(other_lists(lambda found: found[:-1], ("counters",))):
    pass


class LastReverseLeftOut(other_lists(lambda found: found[:-1], ("tags", "ids"))):
    pass


class LastLabelLeftOut(other_lists(lambda found: found[:-1], ("labelled",))):
    pass


class FirstRowsLeftOut(other_lists(lambda found: found[1:])):
    pass


class FirstCounterLeftOut(other_lists(lambda found: found[1:], ("counters",))):
    pass


class LackingLastLookedAtNot(Scheme):
    """The last of these is never looked up."""
    def lacking(self, these, others):
        return super().lacking(these[:-1], others)


class LackingWithoutLastOfOthers(Scheme):
    """The last of the others is never met."""
    def lacking(self, these, others):
        return super().lacking(these, others[:-1])


class LackingWithoutFirstOfOthers(Scheme):
    def lacking(self, these, others):
        return super().lacking(these, others[1:])


class FreeRowsChecked(Scheme):
    """Every row of M, used or free."""
    def tags(self, store, name):
        t = self.tables(store)[name]
        return [row(store, t, i)[1:33] for i in range(t.rows)]


class TagsOfC(Scheme):
    """V's tags are looked up in C."""
    def faults(self, store):
        found = list(super().faults(store))
        found[2] = self.lacking(self.reverse_tags(store), self.tags(store, "C"))
        return tuple(found)


class TagsOfMAndC(Scheme):
    """V's tags are looked up in M, and then in C."""
    def faults(self, store):
        found = list(super().faults(store))
        found[2] = self.lacking(self.reverse_tags(store), self.tags(store, "M") + self.tags(store, "C"))
        return tuple(found)


class RepeatsOfMTwice(Scheme):
    """C's repeats are M's."""
    def faults(self, store):
        found = list(super().faults(store))
        found[1] = found[0]
        return tuple(found)


class RepeatsOfMAndC(Scheme):
    """A counter's tag that an entry has."""
    def faults(self, store):
        found = list(super().faults(store))
        found[1] = self.again(self.tags(store, "M") + self.tags(store, "C")) - found[0]
        return tuple(found)


def exchanged(i, j):
    class Wrong(Scheme):
        def faults(self, store):
            found = list(super().faults(store))
            found[i], found[j] = found[j], found[i]
            return tuple(found)
    return Wrong


class MAndCExchanged(exchanged(0, 1)):
    pass


class MAndVExchanged(exchanged(2, 3)):
    pass


class RAndVExchanged(exchanged(4, 5)):
    pass


class LabelsAndExcessExchanged(exchanged(5, 6)):
    pass


class TagsAndIdsExchanged(exchanged(2, 4)):
    pass


class ExcessNegative(Scheme):
    def more(self, n, than):
        return n - than


class ExcessEitherWay(Scheme):
    def more(self, n, than):
        return abs(n - than)


class ExcessOfV(Scheme):
    def more(self, n, than):
        return super().more(than, n)


class ExcessOneShort(Scheme):
    def more(self, n, than):
        return max(0, n - than - 1)


class ExcessOverM(Scheme):
    """R less M."""
    def faults(self, store):
        found = super().faults(store)
        return found[:6] + (self.more(len(self.labelled_ids(store)), len(self.tags(store, "M"))),)


class NoExcess(Scheme):
    def more(self, n, than):
        return 0


class WholeRowsRepeated(Scheme):
    """Equal rows, and not equal tags."""
    def faults(self, store):
        t = self.tables(store)
        return tuple(self.again(used_rows(store, t[name])) for name in "MC") + super().faults(store)[2:]


class EachPairOfATag(Scheme):
    """Three rows of a tag are three pairs."""
    def again(self, tags):
        return sum(tags[:at].count(tag) for at, tag in enumerate(tags))


class EachRepeatedTagOnce(Scheme):
    def again(self, tags):
        return sum(n > 1 for n in Counter(tags).values())


class AllRowsOfARepeatedTag(Scheme):
    """The first of them too."""
    def again(self, tags):
        return sum(n for n in Counter(tags).values() if n > 1)


class EachLackingOnce(Scheme):
    """Different tags and ids, and not rows."""
    def lacking(self, these, others):
        return len(set(these) - set(others))


class LackingOneForOne(Scheme):
    """Each of the others stands for one of these alone."""
    def lacking(self, these, others):
        return (Counter(these) - Counter(others)).total()


class NeighboursOfVAlone(Scheme):
    """V's tags are walked beside M's, as though V were in the order of its tags."""
    def lacking(self, these, others):
        found, at = 0, 0
        for one in these:
            while at < len(others) and others[at] < one:
                at += 1
            found += at == len(others) or others[at] != one
        return found


class VSearchedByTags(Scheme):
    """A binary search of V by a tag, though V is in the order of its ids."""
    def lacking(self, these, others):
        places = [bisect_left(others, one) for one in these]
        return sum(at == len(others) or others[at] != one for at, one in zip(places, these))


class NeighboursAlone(Scheme):
    """An id of V is looked for in R at its own place and beside it alone."""
    def faults(self, store):
        found = list(super().faults(store))
        ids, labelled = self.reverse_ids(store), self.labelled_ids(store)
        found[4] = sum(one not in labelled[max(0, at - 1):at + 2] for at, one in enumerate(ids))
        return tuple(found)


class StopsAtTheFirst(Scheme):
    """Each number is at most 1."""
    def faults(self, store):
        return tuple(min(1, n) for n in super().faults(store))


class SixNumbers(Scheme):
    def faults(self, store):
        return super().faults(store)[:6]


class RepeatedIds(Scheme):
    """An id with several entries is taken for a fault."""
    def faults(self, store):
        found = list(super().faults(store))
        found[0] += self.again(self.reverse_ids(store))
        return tuple(found)


class RepeatedTagsOfV(Scheme):
    """V's rows with one tag are counted with M's."""
    def faults(self, store):
        found = list(super().faults(store))
        found[0] += self.again(self.reverse_tags(store))
        return tuple(found)


def refusing(conditions):
    class Wrong(Scheme):
        def check_conditions(self, store):
            return conditions(self, store)
    return Wrong


def twenty_first(model, store):
    yield 10, model.header(store) is None
    yield 20, not all(model.in_form(store, t) for t in model.tables(store).values())
    yield 11, scheme.marks_wrong(store)


def few_tables(model, store):
    """S is not looked at."""
    yield from model.store_conditions(store)
    yield 20, not all(model.in_form(store, t) for name, t in model.tables(store).items() if name != "S")


class CheckTakesAnyForm(refusing(lambda model, store: model.store_conditions(store))):
    pass


class CheckTwentyBeforeEleven(refusing(twenty_first)):
    pass


class CheckTakesAnyLog(refusing(few_tables)):
    pass


class CheckTellsFormAsNumbers(Scheme):
    """A store out of form is answered by zeros."""
    def check(self, store):
        answer = super().check(store)
        return Done((0,) * 7) if answer == Refused(20, ()) else answer


class CheckCarriesNumbers(Scheme):
    """20 carries the numbers."""
    def check(self, store):
        answer = super().check(store)
        return Refused(20, self.faults(store)) if answer == Refused(20, ()) else answer


class CheckPutsInForm(Scheme):
    """A check of a store out of form leaves it in form."""
    def check(self, store):
        answer = super().check(store)
        if answer == Refused(20, ()) and isinstance(store, bytearray):
            self.order(store)
        return answer


class CheckTakesRowsAway(Scheme):
    """Rows of M that no row of V has are freed."""
    def check(self, store):
        answer = super().check(store)
        if isinstance(answer, Done) and isinstance(store, bytearray):
            m, tags = tables(store)["M"], self.reverse_tags(store)
            self.arrange(store, m, [r for r in used_rows(store, m) if r[1:33] in tags])
        return answer


class LedgerCheckTellsRepeats(Ledger):
    """Ids with several entries."""
    def check(self):
        ids = [id for listed in self.lists.values() for id in listed]
        return Done((len(ids) - len(set(ids)),) + (0,) * 6)


class LedgerCheckTellsErased(Ledger):
    """Entries made and not listed."""
    def check(self):
        return Done((0, 0, 0, sum(self.made.values()) - self.total(), 0, 0, 0))


class LedgerCheckTellsSum(Ledger):
    """One number."""
    def check(self):
        return Done((0,))


class LedgerCheckTellsRows(Ledger):
    """The rows, as an order does."""
    def check(self):
        return self.order()


# A store that calls made shows these.
CHECKS_IN_LISTS = [LastEntryLeftOut, FirstRowsLeftOut, LackingWithoutLastOfOthers, LackingWithoutFirstOfOthers, FreeRowsChecked, TagsOfC,
                   NeighboursOfVAlone, VSearchedByTags, SixNumbers, RepeatedIds]
# These show on stores of faults.py.
CHECKS = [TagsOnThirtyOneBytes, RepeatedTagsOnThirtyOneBytes, LackingTagsOnThirtyOneBytes, TagsWithoutFirstByte, TagsOnEightBytes,
          IdsOnFifteenBytes, IdsWithoutFirstByte, LastRowsLeftOut, LastCounterLeftOut, LastReverseLeftOut, LastLabelLeftOut,
          FirstCounterLeftOut, LackingLastLookedAtNot, TagsOfMAndC, RepeatsOfMTwice, RepeatsOfMAndC, MAndCExchanged, MAndVExchanged,
          RAndVExchanged, LabelsAndExcessExchanged, TagsAndIdsExchanged, ExcessNegative, ExcessEitherWay, ExcessOfV, ExcessOneShort,
          ExcessOverM, NoExcess, WholeRowsRepeated, EachPairOfATag, EachRepeatedTagOnce, AllRowsOfARepeatedTag, EachLackingOnce,
          LackingOneForOne, StopsAtTheFirst, RepeatedTagsOfV, NeighboursAlone] + CHECKS_IN_LISTS
# These show where a store is refused, or in its bytes.
CHECKS_REFUSED = [CheckTakesAnyForm, CheckTwentyBeforeEleven, CheckTakesAnyLog, CheckTellsFormAsNumbers, CheckCarriesNumbers, CheckPutsInForm,
                  CheckTakesRowsAway]
LEDGERS_CHECKS = [LedgerCheckTellsRepeats, LedgerCheckTellsErased, LedgerCheckTellsSum, LedgerCheckTellsRows]
