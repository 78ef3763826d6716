"""Wrong versions of store and ledger: each has to be caught by the examples, by the random lists, on hostile
stores or on stores made for counts or for checks, so that the comparison is known to be able to fail. Only a difference counts; an exception of
a wrong version's own is a fault of this test. The first three are the slips that document 01, 'A day
in the ledger', names. Those of request 4 of document 02 are in joint_mutants.py, those of the check in check_mutants.py.
"""
import sys
import traceback
from bisect import bisect_left, bisect_right

import calls
import examples
import faults
import form
import hostile
import looked
import scheme
from calls import Done, Refused, first
from check_mutants import CHECKS, CHECKS_IN_LISTS, CHECKS_REFUSED, LEDGERS_CHECKS
from joint_mutants import LEDGERS_MARKS, MARKS_IN_LISTS, MARKS_ON_STORES
from ledger import Ledger
from primitives import Cheap
from scheme import Scheme, free, lookup, number, row, set_row, tables, used, used_rows


class CountsFromZeroAfterAnchor(Scheme):
    def read(self, store, cl):
        counter = super().read(store, cl)
        return counter._replace(count=0) if counter and counter.k == 0 else counter


class NextAddressFromIdsListed(Scheme):
    """The answer stays right, so this one is caught at G6 and not at G4."""
    def next_address(self, store, mt, counter):
        m = tables(store)["M"]
        return 1 + sum(lookup(store, m, self.entry_tag(mt, a)) is not None
                       for a in range(1, counter.count + 1))


class LedgerMadeFromIdsListed(Ledger):
    def insert(self, call):
        answer = super().insert(call)
        if isinstance(answer, Refused):
            return answer
        pair = (call.name, call.value, call.u)
        self.made[pair] = len(self.lists[pair])
        return Done((self.made[pair],))


class AnchorPerSRow(Scheme):
    def to_treat(self, labels):
        return labels

    def writes_anchor(self, counter):
        return True


class LedgerAnchorPerInsert(Ledger):
    def pairs_touched(self):
        return self.inserts


class AnchorCountOneShort(Scheme):
    def treat(self, store, cl, counter, nonce):
        super().treat(store, cl, counter._replace(count=counter.count - 1), nonce)


class AnchorNumberAgain(Scheme):
    def treat(self, store, cl, counter, nonce):
        super().treat(store, cl, counter._replace(anchors=max(counter.anchors - 1, 0)), nonce)


class EraseLeavesM(Scheme):
    def free_entries(self, store, tags):
        pass


class EraseLeavesV(Scheme):
    def erase(self, store, id):
        kept = bytes(store)
        answer = super().erase(store, id)
        if isinstance(answer, Done):
            v = tables(store)["V"]
            store[v.start:v.start + v.width * v.rows] = kept[v.start:v.start + v.width * v.rows]
        return answer


class EraseFirstOnly(Scheme):
    def erase(self, store, id):
        refused = first(self.erase_all_conditions(store, id))
        if refused:
            return refused
        v = tables(store)["V"]
        of_id = [i for i in used(store, v) if row(store, v, i)[1:17] == id][:1]
        self.free_entries(store, {row(store, v, i)[17:] for i in of_id})
        self.free_rows(store, "V", of_id)
        self.free_marks(store, id, of_id)
        return Done((len(of_id),))


class LedgerSixteenTooLate(Ledger):
    def no_counter_room(self):
        return self.anchors + self.inserts > self.c


class LedgerAnchorsNotKept(Ledger):
    def no_counter_room(self):
        return self.inserts + 1 > self.c


class LedgerFindsRepeats(Ledger):
    def without_later_repeats(self, ids):
        return ids


class LedgerDropsEarlierRepeats(Ledger):
    def without_later_repeats(self, ids):
        return super().without_later_repeats(ids[::-1])[::-1]


class LedgerErasesEachIdOnce(Ledger):
    def erase(self, call):
        answer = super().erase(call)
        return Done((min(1, answer.values[0]),)) if isinstance(answer, Done) else answer


class LedgerCountsEachIdOnce(Ledger):
    def count(self, call):
        answer = super().count(call)
        if isinstance(answer, Refused):
            return answer
        joined = self.joined(call.name, call.value)
        return Done((answer.values[0] - len(joined) + len(set(joined)),))


class LedgerKeepsEachIdOnce(Ledger):
    """An insert leaves out what its list has: fewer rows are used, and erase tells fewer."""
    def insert(self, call):
        answer = super().insert(call)
        if isinstance(answer, Done):
            pair = (call.name, call.value, call.u)
            self.lists[pair] = self.without_later_repeats(self.lists[pair])
        return answer


class CompactionLeavesS(Scheme):
    def free_s(self, store, token, cl):
        pass


class CompactionLeavesCounters(Scheme):
    def treat(self, store, cl, counter, nonce):
        if free(store, tables(store)["C"]):
            super().treat(store, cl, counter._replace(held=[]), nonce)


class CompactionNeverTreats(Scheme):
    def treat(self, store, cl, counter, nonce):
        pass


class InsertWritesNoCounter(Scheme):
    def put_counter(self, store, cl, counter, nonce, new):
        pass


class InsertWritesOnlyFirst(Scheme):
    def put(self, store, name, *contents):
        if name != "M":
            super().put(store, name, *contents)
        elif not used(store, tables(store)["M"]):
            super().put(store, name, contents[0])


class FindStopsAtMissing(Scheme):
    def share(self, store, mt, me, count):
        m, found = tables(store)["M"], []
        for address in range(1, count + 1):
            i = lookup(store, m, self.entry_tag(mt, address))
            if i is None:
                break
            r = row(store, m, i)
            found.append(self.E(me, r[33:45], r[45:61]))
        return found


class FindOneAddressShort(Scheme):
    def share(self, store, mt, me, count):
        return super().share(store, mt, me, count - 1)


class FindOnlyShareZero(Scheme):
    def counts(self, store, counter_key):
        return super().counts(store, counter_key)[:1]


class FindWritesBeforeRefusing(Scheme):
    def find(self, store, token, output):
        answer = super().find(store, token, output)
        if isinstance(answer, Refused) and len(output) > 0:
            output[0] ^= 255
        return answer


class FindCarriesRoom(Scheme):
    def find(self, store, token, output):
        answer = super().find(store, token, output)
        return Refused(18, (len(output) // 16,)) if answer[0] == 18 else answer


class FindAlwaysEmpty(Scheme):
    def share(self, store, mt, me, count):
        return []


class FindGivesRepeats(Scheme):
    def once(self, shares):
        return [id for ids in shares for id in ids]


class FindAtLastPlace(Scheme):
    def once(self, shares):
        return super().once([ids[::-1] for ids in shares[::-1]])[::-1]


class FindDropsNeighboursOnly(Scheme):
    def once(self, shares):
        joined = [id for ids in shares for id in ids]
        return [id for at, id in enumerate(joined) if at == 0 or joined[at - 1] != id]


class FindOnceWithinShare(Scheme):
    def once(self, shares):
        return [id for ids in shares for id in super(FindOnceWithinShare, self).once([ids])]


class FindOnceWithinFirstShare(Scheme):
    """Repeats in later shares are dropped where share 0 has the id, and not among themselves."""
    def once(self, shares):
        first_share = super().once(shares[:1])
        return first_share + [id for ids in shares[1:] for id in ids if id not in first_share]


class FindDropsEveryRepeated(Scheme):
    """An id with several entries is left out whole."""
    def once(self, shares):
        joined = [id for ids in shares for id in ids]
        return [id for id in joined if joined.count(id) == 1]


class FindOnceByFifteenBytes(Scheme):
    def once(self, shares):
        kept = {}
        for ids in shares:
            for id in ids:
                kept.setdefault(id[:15], id)
        return list(kept.values())


class FindOnceByEightBytes(Scheme):
    """The last eight."""
    def once(self, shares):
        kept = {}
        for ids in shares:
            for id in ids:
                kept.setdefault(id[8:], id)
        return list(kept.values())


class FindInOrderOfBytes(Scheme):
    def once(self, shares):
        return sorted(super().once(shares))


class FindCarriesEntries(Scheme):
    """18 carries the number with repeats."""
    def find(self, store, token, output):
        answer = super().find(store, token, output)
        if answer[0] != 18:
            return answer
        return Refused(18, (sum(len(ids) for ids in self.shares(store, token)),))


class FindWantsRoomForEntries(Scheme):
    """18 is judged on the number with repeats, and carries the right one."""
    def find(self, store, token, output):
        lent = bytes(output)
        answer = super().find(store, token, output)
        if isinstance(answer, Done) and len(lent) < 16 * sum(len(ids) for ids in self.shares(store, token)):
            output[:] = lent
            return Refused(18, answer.values)
        return answer


class FindLeavesRepeatsBehind(Scheme):
    """All entries' ids are written where there is room, then the different ones over them."""
    def find(self, store, token, output):
        answer = super().find(store, token, output)
        if isinstance(answer, Done):
            all_ids = b"".join(id for ids in self.shares(store, token) for id in ids)
            n = 16 * answer.values[0]
            output[n:len(all_ids)] = all_ids[n:len(output)]
        return answer


class EraseCountsEachIdOnce(Scheme):
    def erase(self, store, id):
        answer = super().erase(store, id)
        return Done((min(1, answer.values[0]),)) if isinstance(answer, Done) else answer


class RoomInAnotherOrder(Scheme):
    def room_conditions(self, store, count, j):
        return iter(sorted(super().room_conditions(store, count, j), reverse=True))


class RefusesWhenFull(Scheme):
    """15 one row too early."""
    def room_conditions(self, store, count, j):
        yield 15, len(free(store, tables(store)["M"])) <= j
        yield from super().room_conditions(store, count, j)


class CompactionByLabels(Scheme):
    """19 counted by distinct CL instead of used S rows."""
    def compact_all_conditions(self, store, token, nonces):
        yield from calls.compact_conditions(len(token), nonces)
        yield from self.state_conditions(store)
        yield 19, len(nonces) // 12 < len(set(self.labels_of_s(store, token)))


class LabelWithoutLength(Scheme):
    def label(self, name, value):
        return name + value


class LabelBigGroupsFirst(Scheme):
    def label(self, name, value):
        length = len(name)
        start = bytes([length]) if length < 128 else bytes([128 | length // 128, length % 128])
        return start + name + value


class SharesAlike(Scheme):
    """The share left out of the entry tag."""
    def insert_token(self, key, name, value, p, u, nonce):
        token = super().insert_token(key, name, value, p, u, nonce)
        if isinstance(token, Refused):
            return token
        return token[:1] + self.F(self.address_key(key, name, value), number(0)) + token[33:]


# What document 02, request 2, could be taken for. What is wrong with the order of rows shows in the bytes alone.


def by_key(key, checked=True, names="MVCSR"):
    """Rows of some tables in the order of a key, equal ones as they come; checked by it too, or by the right form."""
    class Wrong(Scheme):
        def arranged(self, rows, t):
            right = scheme.arranged(rows, t)
            if t.width not in [scheme.WIDTH[n] for n in names]:
                return right
            rows = sorted(rows, key=key)
            return b"".join(rows) + right[len(b"".join(rows)):]

        def in_form(self, store, t):
            if not checked or t.width not in [scheme.WIDTH[n] for n in names]:
                return super().in_form(store, t)
            table = bytes(store[t.start:t.start + t.width * t.rows])
            return table == self.arranged(used_rows(store, t), t)
    return Wrong


class TiesByTag(by_key(lambda r: r[:33])):
    """Rows of one tag as they come: no list with tags that differ can show it of M and C."""


class TiesById(by_key(lambda r: r[:17], names="V")):
    pass


class TiesByNonce(by_key(lambda r: r[:13], names="S")):
    pass


class LastByteLeftOut(by_key(lambda r: r[:-1])):
    pass


class Descending(by_key(lambda r: [-byte for byte in r])):
    pass


class DescendingUnchecked(by_key(lambda r: [-byte for byte in r], checked=False)):
    pass


class SignedBytes(by_key(form.signed)):
    pass


class SignedBytesUnchecked(by_key(form.signed, checked=False)):
    pass


class LittleEndian(by_key(lambda r: (r[0], r[:0:-1]))):
    """The last byte first."""


def checked(kind, wanted=lambda found, t: False):
    """A check that misses a kind of fault, but where it is as wanted."""
    class Wrong(Scheme):
        def in_form(self, store, t):
            return not [f for f in form.faults(store, t) if f[0] != kind or wanted(f[1], t)]
    return Wrong


class UsedAfterFreeAccepted(checked("used after free")):
    pass


class UsedLastRowAccepted(checked("used after free", lambda i, t: i < t.rows - 2)):
    pass


class LeftOverAccepted(checked("left over")):
    pass


class LeftOverInLastRowAccepted(checked("left over", lambda i, t: i < t.rows - 1)):
    pass


class LeftOverInFirstRowAccepted(checked("left over", lambda i, t: i > 0)):
    pass


class FirstPairUnchecked(checked("descending", lambda i, t: i > 0)):
    pass


class LastPairUnchecked(checked("descending", lambda i, t: i < t.rows - 2)):
    """Of a full table."""


def left_over_at(places):
    class Wrong(Scheme):
        def in_form(self, store, t):
            cleared = bytearray(store)
            for i in free(store, t):
                for at in places(t):
                    cleared[t.start + t.width * i + at] = 0
            return super().in_form(cleared, t)
    return Wrong


class LeftOverAfterMarkAccepted(left_over_at(lambda t: [1])):
    pass


class LeftOverInLastByteAccepted(left_over_at(lambda t: [t.width - 1])):
    pass


class LeftOverAboveSevenBitsAccepted(Scheme):
    """Zeros tested by a sum of signed bytes, or by less than all bits."""
    def in_form(self, store, t):
        cleared = bytearray(store)
        for i in free(store, t):
            set_row(cleared, t, i, bytes(byte & 0x7f for byte in row(store, t, i)))
        return super().in_form(cleared, t)


def unchecked(name):
    class Wrong(Scheme):
        def in_form(self, store, t):
            return t == tables(store)[name] or super().in_form(store, t)
    return Wrong


class MUnchecked(unchecked("M")):
    pass


class VUnchecked(unchecked("V")):
    pass


class CUnchecked(unchecked("C")):
    pass


class SUnchecked(unchecked("S")):
    pass


class RUnchecked(unchecked("R")):
    pass


class EqualRowsRefused(Scheme):
    def in_form(self, store, t):
        rows = used_rows(store, t)
        return super().in_form(store, t) and len(set(rows)) == len(rows)


class TwentyBeforeEleven(Scheme):
    def state_conditions(self, store):
        tests = list(self.in_order(store))
        yield from (tests[i] for i in (0, 2, 1))

    def in_order(self, store):
        bad = scheme.header(store) is None
        yield 10, bad
        yield 11, not bad and scheme.marks_wrong(store)
        yield 20, not bad and any(form.faults(store, t) for t in tables(store).values())


class TwentyByTable(Scheme):
    """11 and 20 table by table."""
    def state_conditions(self, store):
        yield 10, scheme.header(store) is None
        for t in tables(store).values():
            yield 11, any(store[t.start + t.width * i] > 1 for i in range(t.rows))
            yield 20, bool(form.faults(store, t))


def later(number_before, conditions):
    """20 right after another number."""
    class Wrong(Scheme):
        pass

    def moved(self, store, *arguments):
        twenty = (20, False)
        for number, holds in getattr(Scheme, conditions)(self, store, *arguments):
            if number == 20:
                twenty = (number, holds)
                continue
            yield number, holds
            if number == number_before:
                yield twenty
    setattr(Wrong, conditions, moved)
    return Wrong


class TwentyAfterTwelve(later(12, "insert_all_conditions")):
    pass


class TwentyAfterThirteen(later(13, "insert_all_conditions")):
    pass


class TwentyAfterNineteen(later(19, "compact_all_conditions")):
    pass


class TwentyAfterThirteenInCount(later(13, "count_all_conditions")):
    pass


class TwentyAfterThirteenInJointFind(later(13, "joint_find_all_conditions")):
    pass


class TwentyBeforeFive(Scheme):
    def erase_all_conditions(self, store, id):
        yield from self.state_conditions(store)
        yield from calls.erase_conditions(id)


def not_tested(conditions):
    class Wrong(Scheme):
        pass
    setattr(Wrong, conditions, lambda self, *arguments: (
        pair for pair in getattr(Scheme, conditions)(self, *arguments) if pair[0] != 20))
    return Wrong


class FindTakesAnyForm(not_tested("find_all_conditions")):
    pass


class CountTakesAnyForm(not_tested("count_all_conditions")):
    pass


class EraseTakesAnyForm(not_tested("erase_all_conditions")):
    pass


class InsertTakesAnyForm(not_tested("insert_all_conditions")):
    pass


class CompactionTakesAnyForm(not_tested("compact_all_conditions")):
    pass


class TestTakesAnyForm(not_tested("test_all_conditions")):
    pass


class JointFindTakesAnyForm(not_tested("joint_find_all_conditions")):
    pass


class OrderDropsEqualRows(Scheme):
    def order(self, store):
        answer = super().order(store)
        if isinstance(answer, Done):
            for t in tables(store).values():
                self.arrange(store, t, set(used_rows(store, t)))
        return answer


class OrderDropsAndCountsEqualRows(OrderDropsEqualRows):
    """The answer is that of what is left."""
    def order(self, store):
        answer = super().order(store)
        return Done((self.ordered(store),)) if isinstance(answer, Done) else answer


class OrderAnswersDistinctRows(Scheme):
    def ordered(self, store):
        return sum(len(set(used_rows(store, t))) for t in tables(store).values())


class OrderAnswersEntries(Scheme):
    """The rows of M alone."""
    def ordered(self, store):
        return len(used(store, tables(store)["M"]))


class OrderAnswersWithoutLog(Scheme):
    def ordered(self, store):
        return super().ordered(store) - len(used(store, tables(store)["S"]))


class OrderAnswersRowsMoved(Scheme):
    def order(self, store):
        before = bytes(store)
        answer = super().order(store)
        if isinstance(answer, Refused):
            return answer
        return Done((sum(row(before, t, i) != row(store, t, i) for t in tables(store).values() for i in range(t.rows)),))


class OrderRefusedByForm(Scheme):
    def order_conditions(self, store):
        yield from self.state_conditions(store)


class OrderTakesAnyMark(Scheme):
    def order_conditions(self, store):
        yield 10, scheme.header(store) is None


class OrderLeavesFreeBytes(Scheme):
    """Used rows come first, in order; free rows keep their bytes, in their order."""
    def order(self, store):
        before = bytes(store)
        answer = super().order(store)
        if isinstance(answer, Done):
            for t in tables(store).values():
                for i, kept in zip(free(store, t), free(before, t)):
                    set_row(store, t, i, row(before, t, kept))
        return answer


class OrderLeavesLastTable(Scheme):
    def order(self, store):
        before = bytes(store)
        answer = super().order(store)
        if isinstance(answer, Done):
            store[tables(store)["R"].start:] = before[tables(store)["R"].start:]
        return answer


class OrderBringsUsedRowsUp(Scheme):
    """Used rows first, as they come."""
    def order(self, store):
        refused = first(self.order_conditions(store))
        if refused:
            return refused
        for t in tables(store).values():
            rows = used_rows(store, t)
            store[t.start:t.start + t.width * t.rows] = b"".join(rows) + bytes(t.width * (t.rows - len(rows)))
        return Done((self.ordered(store),))


class InsertAtTheEnd(Scheme):
    """The new rows behind the used ones."""
    def put(self, store, name, *contents):
        t = tables(store)[name]
        rows = used_rows(store, t) + list(contents)
        store[t.start:t.start + t.width * t.rows] = b"".join(rows) + bytes(t.width * (t.rows - len(rows)))


class InsertAtTheFront(Scheme):
    def put(self, store, name, *contents):
        t = tables(store)[name]
        rows = sorted(contents) + used_rows(store, t)
        store[t.start:t.start + t.width * t.rows] = b"".join(rows) + bytes(t.width * (t.rows - len(rows)))


class NewRowsUnsorted(Scheme):
    """Each new row behind the rows that are smaller, the new ones among themselves as they come."""
    def put(self, store, name, *contents):
        t = tables(store)[name]
        rows = used_rows(store, t)
        at = sum(r < min(contents) for r in rows)
        rows[at:at] = contents
        store[t.start:t.start + t.width * t.rows] = b"".join(rows) + bytes(t.width * (t.rows - len(rows)))


def not_closed(names):
    """A freed row is zeroed where it stands."""
    class Wrong(Scheme):
        def free_rows(self, store, name, places):
            if name not in names:
                return super().free_rows(store, name, places)
            for i in places:
                set_row(store, tables(store)[name], i, bytes(scheme.WIDTH[name]))
    return Wrong


class FreedEntriesStay(not_closed("MV")):
    pass


class FreedLogStays(not_closed("S")):
    pass


class FreedMarksStay(not_closed("R")):
    pass


class FreedCountersStay(not_closed("C")):
    """The anchor's row is put in order, and the rows behind it."""
    def put(self, store, name, *contents):
        t = tables(store)[name]
        if name != "C" or not contents or len(used(store, t)) == t.rows:
            return super().put(store, name, *contents)
        set_row(store, t, free(store, t)[0], contents[0])


class FreedRowNotZeroed(Scheme):
    """The rows behind a freed one move up, and the last row's bytes stay behind its mark."""
    def free_rows(self, store, name, places):
        t = tables(store)[name]
        before, n = bytes(store), len(used(store, t))
        super().free_rows(store, name, places)
        for i in range(n - len(set(places)), n):
            set_row(store, t, i, b"\0" + row(before, t, i)[1:])


class LeavesFormAtDamage(Scheme):
    """A compaction puts its tables in form when it is done, and not at 13."""
    def compact(self, store, token, nonces):
        old = bytearray(store)
        answer = super().compact(store, token, nonces)
        if answer[0] == 13 and bytes(old) != bytes(store):
            s = tables(store)["S"]
            left = used_rows(store, s)
            store[s.start:s.start + s.width * s.rows] = b"".join(
                r if r in left else bytes(s.width) for r in (row(old, s, i) for i in range(s.rows)))
        return answer


class LabelsInAnotherOrder(Scheme):
    def to_treat(self, labels):
        return super().to_treat(labels)[::-1]


class LabelsByThemselves(Scheme):
    """In the order of the CL, not of their rows."""
    def to_treat(self, labels):
        return sorted(set(labels))


class SearchMissesFirstRow(Scheme):
    def lookup(self, store, t, tag):
        i = super().lookup(store, t, tag)
        return None if i == 0 else i


class SearchMissesLastRow(Scheme):
    """The last used row."""
    def lookup(self, store, t, tag):
        i = super().lookup(store, t, tag)
        return None if i is not None and i == len(used(store, t)) - 1 else i


class SearchMissesLastRowOfFull(Scheme):
    """The last row of the table."""
    def lookup(self, store, t, tag):
        i = super().lookup(store, t, tag)
        return None if i == t.rows - 1 else i


class SearchOneBefore(Scheme):
    """The row before the one that is not smaller."""
    def lookup(self, store, t, tag):
        i = super().lookup(store, t, tag)
        return i if i is None else max(0, i - 1)


class SearchTakesAnyOfTag(Scheme):
    """The last of the rows with the tag."""
    def lookup(self, store, t, tag):
        found = [i for i in used(store, t) if row(store, t, i)[1:33] == tag]
        return found[-1] if found else None


class SearchTakesTheNext(Scheme):
    """The first row whose tag is not smaller, whatever it is."""
    def lookup(self, store, t, tag):
        return next((i for i in used(store, t) if row(store, t, i)[1:33] >= tag), None)


class EraseFreesOneRowOfTag(Scheme):
    """Of the M rows with a tag the first alone."""
    def free_entries(self, store, tags):
        m = tables(store)["M"]
        places = [lookup(store, m, tag) for tag in tags]
        self.free_rows(store, "M", [i for i in places if i is not None])


class LedgerOrderWithoutAnchors(Ledger):
    def order(self):
        return Done((3 * self.total() + 2 * self.inserts,))


class LedgerOrderCountsIdsOnce(Ledger):
    def order(self):
        return Done((self.total() + self.anchors + 2 * self.inserts,))


class LedgerOrderWithoutLog(Ledger):
    def order(self):
        return Done((3 * self.total() + self.anchors + self.inserts,))


class LedgerOrderCompacts(Ledger):
    def order(self):
        answer = super().order()
        self.inserts = 0
        return answer


class NoRowThatFollows(Scheme):
    """One row too few where a row follows the smaller ones."""
    def rows_at(self, tags, tag):
        return bisect_left(tags, tag)


class OneMoreAtTheEnd(Scheme):
    """One row too many where none follows."""
    def rows_at(self, tags, tag):
        return bisect_left(tags, tag) + (len(tags) > 0)


class OneInAnEmptyTable(Scheme):
    def rows_at(self, tags, tag):
        return max(1, super().rows_at(tags, tag))


class PastEqualTags(Scheme):
    """The walk ends at a greater tag, not at an equal one."""
    def rows_at(self, tags, tag):
        return min(bisect_right(tags, tag) + 1, len(tags))


class EndsAtAnEqualTagOnly(Scheme):
    def rows_at(self, tags, tag):
        return tags.index(tag) + 1 if tag in tags else len(tags)


class ToTheLastUsedRow(Scheme):
    def rows_at(self, tags, tag):
        return len(tags)


class ByEightBytes(Scheme):
    """The first 8 bytes of tags alone are compared."""
    def rows_at(self, tags, tag):
        return super().rows_at([t[:8] for t in tags], tag[:8])


class TagsWithoutLastByte(Scheme):
    def rows_at(self, tags, tag):
        return super().rows_at([t[:31] for t in tags], tag[:31])


class TagsAsSignedBytes(Scheme):
    def rows_at(self, tags, tag):
        smaller = sum(form.signed(t) < form.signed(tag) for t in tags)
        return smaller + (smaller < len(tags))


class HalvesTheTable(Scheme):
    """The rows that a binary search looks at."""
    def rows_at(self, tags, tag):
        low, high, looked_at = 0, len(tags), 0
        while low < high:
            middle, looked_at = (low + high) // 2, looked_at + 1
            low, high = (middle + 1, high) if tags[middle] < tag else (low, middle)
        return looked_at


class EqualTagsOnce(Scheme):
    def tags_met(self, store):
        return sorted(set(super().tags_met(store)))


class RowsOfM(Scheme):
    def tags_met(self, store):
        return sorted(r[1:33] for r in used_rows(store, tables(store)["M"]))


def size_kept(rows_at):
    """A wrong version that knows how many rows the table has, used and free."""
    class Wrong(Scheme):
        def tags_met(self, store):
            self.size = scheme.header(store).c
            return super().tags_met(store)

        def rows_at(self, tags, tag):
            return rows_at(bisect_left(tags, tag), len(tags), self.size)
    return Wrong


class FreeRowsCounted(size_kept(lambda smaller, used, size: smaller + 1 if smaller < used else size)):
    pass


class FreeRowThatFollowsCounted(size_kept(lambda smaller, used, size: smaller + (smaller < size))):
    pass


class TableIsAlwaysWalkedWhole(size_kept(lambda smaller, used, size: size)):
    pass


class LookupsBeyondC(Scheme):
    def lookups(self, store, held):
        return held + 1


class LookupsFewerThanC(Scheme):
    """A kind of which c are held ends one too soon."""
    def lookups(self, store, held):
        return max(1, min(held + 1, scheme.header(store).c - 1))


class MissLeftOut(Scheme):
    """The lookup that finds nothing."""
    def lookups(self, store, held):
        return held


def other_lookups(change):
    """A wrong version that looks up other tags: those it should, the CL, the reading."""
    class Wrong(Scheme):
        def looked_up(self, store, cl):
            return change(self, super().looked_up(store, cl), cl, self.read(store, cl))
    return Wrong


class LastAnchorTwice(other_lookups(lambda self, tags, cl, x: tags + [self.anchor_tag(cl, n) for n in [x.anchors] if n])):
    """Anchor B is looked up again to read its numbers."""


class LastCounterTwice(other_lookups(lambda self, tags, cl, x: tags + [self.counter_tag(cl, x.start + n) for n in [x.k] if n])):
    pass


class EachLookupTwice(other_lookups(lambda self, tags, cl, x: tags + tags)):
    pass


class TwoAnchorsPastTheLast(other_lookups(lambda self, tags, cl, x: tags + [self.anchor_tag(cl, x.anchors + 2)])):
    pass


def anchors_among(model, tags, cl, counter):
    """The tags that are looked up for anchors."""
    return set(tags) & {model.anchor_tag(cl, n + 1) for n in range(counter.anchors + 1)}


class AnchorsLeftOut(other_lookups(lambda self, tags, cl, x: set(tags) - anchors_among(self, tags, cl, x))):
    pass


class CountersLeftOut(other_lookups(anchors_among)):
    pass


class CountersFromOne(Scheme):
    """Counters are looked up from 1 on, not from Start + 1."""
    def looked_up(self, store, cl):
        x = self.read(store, cl)
        return ([self.anchor_tag(cl, n + 1) for n in range(self.lookups(store, x.anchors))]
                + [self.counter_tag(cl, n + 1) for n in range(self.lookups(store, x.k))])


def shares_read(shares):
    """A wrong version that takes the rows of other shares than 0 to p."""
    class Wrong(Scheme):
        def rows_read(self, store, token):
            tags = self.tags_met(store)
            return sum(self.rows_at(tags, tag) for u in shares(scheme.header(store).p)
                       for tag in self.looked_up(store, self.F(token, number(u))))
    return Wrong


class LastShareLeftOut(shares_read(lambda p: range(max(1, p)))):
    """Where there are several."""


class FirstShareLeftOut(shares_read(lambda p: range(min(1, p), p + 1))):
    pass


class ShareZeroForEach(shares_read(lambda p: [0] * (p + 1))):
    pass


class OneShareMore(Scheme):
    def rows_read(self, store, token):
        tags, past = self.tags_met(store), self.F(token, number(scheme.header(store).p + 1))
        return super().rows_read(store, token) + sum(self.rows_at(tags, tag(past, 1)) for tag in (self.anchor_tag, self.counter_tag))


class RowsOfTheLastShareAlone(shares_read(lambda p: [p])):
    """The tally begins again at each share."""


def other_answer(change):
    class Wrong(Scheme):
        def count(self, store, token):
            answer = super().count(store, token)
            return change(self, store, token, answer)
    return Wrong


class RowsBeforeTheCount(other_answer(lambda self, store, token, x: Done(x.values[::-1]) if isinstance(x, Done) else x)):
    pass


class CountTellsNoRows(other_answer(lambda self, store, token, x: Done(x.values[:1]) if isinstance(x, Done) else x)):
    pass


class DamageCarriesRows(other_answer(lambda self, store, token, x: Refused(13, (0,)) if x == Refused(13, ()) else x)):
    pass


class CountStopsAtC(other_answer(lambda self, store, token, x: Done((min(x.values[0], scheme.header(store).c), x.values[1]))
                                 if isinstance(x, Done) else x)):
    """The count is that of a shorter reading."""


class LedgerTellsRows(Ledger):
    """The ledger knows no rows."""
    def count(self, call):
        answer = super().count(call)
        return Done(answer.values + (0,)) if isinstance(answer, Done) else answer


# What document 02, request 1, could be taken for [02:W1.1 W1.2 W1.3 W1.6]; the lists have to catch each of these, the ledger's
# below among them [02:W1.4 W1.5 W1.6].
REPEATS = [FindGivesRepeats, FindAtLastPlace, FindDropsNeighboursOnly, FindOnceWithinShare,
           FindOnceWithinFirstShare, FindDropsEveryRepeated, FindOnceByFifteenBytes, FindOnceByEightBytes,
           FindInOrderOfBytes, FindCarriesEntries, FindWantsRoomForEntries, FindLeavesRepeatsBehind,
           EraseCountsEachIdOnce]
LEDGERS_REPEATS = [LedgerFindsRepeats, LedgerDropsEarlierRepeats, LedgerErasesEachIdOnce,
                   LedgerCountsEachIdOnce, LedgerKeepsEachIdOnce]
# What request 2 could be taken for [02:W2.1 W2.2 W2.3 W2.4 W2.5 W2.6 W2.7 W2.8 W2.9 W2.10 W2.11 W2.12]: what goes wrong in lists
# has to be caught there, by an answer or a byte, and the rest on hostile stores.
FORMS_IN_LISTS = [TiesById, Descending, DescendingUnchecked, SignedBytes, SignedBytesUnchecked, LittleEndian,
                  OrderAnswersEntries, OrderAnswersWithoutLog, OrderAnswersRowsMoved, InsertAtTheEnd,
                  InsertAtTheFront, NewRowsUnsorted, FreedEntriesStay, FreedMarksStay, FreedCountersStay, FreedRowNotZeroed,
                  LabelsInAnotherOrder, LabelsByThemselves, SearchMissesFirstRow, SearchMissesLastRow,
                  SearchMissesLastRowOfFull, SearchOneBefore, SearchTakesTheNext]
FORMS = [TiesByTag, TiesByNonce, LastByteLeftOut, FreedLogStays, UsedAfterFreeAccepted, UsedLastRowAccepted, LeftOverAccepted,
         LeftOverInLastRowAccepted, LeftOverInFirstRowAccepted, FirstPairUnchecked, LastPairUnchecked,
         LeftOverAfterMarkAccepted, LeftOverInLastByteAccepted, LeftOverAboveSevenBitsAccepted, MUnchecked, VUnchecked,
         CUnchecked, SUnchecked, RUnchecked, EqualRowsRefused, TwentyBeforeEleven, TwentyByTable, TwentyAfterTwelve,
         TwentyAfterThirteen, TwentyAfterNineteen, TwentyAfterThirteenInCount, TwentyAfterThirteenInJointFind,
         TwentyBeforeFive, FindTakesAnyForm, CountTakesAnyForm, EraseTakesAnyForm, InsertTakesAnyForm, CompactionTakesAnyForm,
         TestTakesAnyForm, JointFindTakesAnyForm, OrderDropsEqualRows,
         OrderDropsAndCountsEqualRows, OrderAnswersDistinctRows, OrderRefusedByForm, OrderTakesAnyMark,
         OrderLeavesFreeBytes, OrderLeavesLastTable, OrderBringsUsedRowsUp, LeavesFormAtDamage, SearchTakesAnyOfTag,
         EraseFreesOneRowOfTag] + FORMS_IN_LISTS
LEDGERS_FORMS = [LedgerOrderWithoutAnchors, LedgerOrderCountsIdsOnce, LedgerOrderWithoutLog, LedgerOrderCompacts]
# What request 3 could be taken for [02:W3.2 W3.3 W3.4 W3.5 W3.6 W3.7 W3.8 W3.12]: the examples and the stores made for counts both have to
# catch each of these.
ROWS = [NoRowThatFollows, OneMoreAtTheEnd, OneInAnEmptyTable, PastEqualTags, EndsAtAnEqualTagOnly, ToTheLastUsedRow, ByEightBytes,
        TagsWithoutLastByte, TagsAsSignedBytes, HalvesTheTable, EqualTagsOnce, RowsOfM, FreeRowsCounted, FreeRowThatFollowsCounted,
        TableIsAlwaysWalkedWhole, LookupsBeyondC, LookupsFewerThanC, MissLeftOut, LastAnchorTwice, LastCounterTwice, EachLookupTwice,
        TwoAnchorsPastTheLast, AnchorsLeftOut, CountersLeftOut, CountersFromOne, LastShareLeftOut, FirstShareLeftOut, ShareZeroForEach,
        OneShareMore, RowsOfTheLastShareAlone, RowsBeforeTheCount, CountTellsNoRows, DamageCarriesRows, CountStopsAtC]
ROWS_IN_LISTS = [RowsBeforeTheCount, CountStopsAtC]
LEDGERS_ROWS = [LedgerTellsRows]
# What request 4 could be taken for [02:W4.3 W4.4 W4.5 W4.6 W4.7 W4.9 W4.10 W4.11 W4.12 W4.13 W4.14 W4.17 W4.18 W4.19 W4.20 W4.21
# W4.22 W4.23 W4.24 W4.25 W4.30]: the examples have to catch each of these in a store, and besides the lists or the hostile stores.
MARKS = MARKS_IN_LISTS + MARKS_ON_STORES
# What the check could be taken for [check:1 check:2 check:3 check:4 check:5 check:6 check:7 check:8 check:10]: the stores written by hand
# and the drawn ones both have to catch each of these.
SEEN = CHECKS + CHECKS_REFUSED
STORES = [CountsFromZeroAfterAnchor, NextAddressFromIdsListed, AnchorPerSRow, AnchorCountOneShort,
          AnchorNumberAgain, EraseLeavesM, EraseLeavesV, EraseFirstOnly, CompactionLeavesS,
          CompactionLeavesCounters, CompactionNeverTreats, InsertWritesNoCounter,
          InsertWritesOnlyFirst, FindStopsAtMissing, FindOneAddressShort, FindOnlyShareZero,
          FindWritesBeforeRefusing, FindCarriesRoom, FindAlwaysEmpty, RoomInAnotherOrder,
          RefusesWhenFull, CompactionByLabels, LabelWithoutLength, LabelBigGroupsFirst, SharesAlike] + REPEATS + FORMS + ROWS + MARKS + SEEN
LEDGERS = [LedgerMadeFromIdsListed, LedgerAnchorPerInsert, LedgerSixteenTooLate,
           LedgerAnchorsNotKept] + LEDGERS_REPEATS + LEDGERS_FORMS + LEDGERS_ROWS + LEDGERS_MARKS + LEDGERS_CHECKS
# Caught by the lists, whatever the examples say.
IN_LISTS = (REPEATS + LEDGERS_REPEATS + FORMS_IN_LISTS + LEDGERS_FORMS + ROWS_IN_LISTS + LEDGERS_ROWS + MARKS_IN_LISTS + LEDGERS_MARKS
            + CHECKS_IN_LISTS + LEDGERS_CHECKS)


def by_examples(build, build_ledger):
    try:
        examples.shared(build, build_ledger)
    except examples.Wrong as found:
        return str(found).split(":")[0]
    return None


def by_lists(build, build_ledger, given, bytes_too):
    """The number of lists after which the wrong version was caught, or None: by what it tells, and with `bytes_too` by
    the bytes that it leaves."""
    from compare import Difference, Lists, run_list, stores_for
    lists = Lists(given.seed, given.longest)

    def alike(stores):
        return "the stores differ" if bytes(stores[0]) != bytes(stores[1]) else None

    for i in range(given.lists):
        drawn = lists.draw()
        stores = stores_for([build(Cheap), Scheme(Cheap)] if bytes_too else [build(Cheap)], lists)
        try:
            run_list(drawn, stores, build_ledger(lists.p, *lists.sizes), alike=alike if bytes_too else None)
        except Difference:
            return i + 1
    return None


def by_hostile(build, given):
    """The number of calls on hostile stores after which the wrong version told something else than the right one, or left
    other bytes, or None."""
    drawn = hostile.Hostile(given.seed, Cheap)
    wrong, right = build(Cheap), Scheme(Cheap)
    for i in range(given.hostile):
        store, call = drawn.draw()
        if hostile.huge(right, store, call):
            continue
        other = bytearray(store)
        if wrong.call(store, call) != right.call(other, call) or store != other:
            return i + 1
    return None


def by_counts(build, given):
    """The number of stores made for counts after which the wrong version told something else than a walk from row to row, or
    None."""
    drawn = looked.Stores(given.seed, Cheap)
    wrong, right = build(Cheap), Scheme(Cheap)
    for i in range(given.counts):
        store, token = drawn.draw()
        if looked.Looked().fault(right, store, token, wrong.count(store, token)):
            return i + 1
    return None


def by_checks(build, given):
    """The number of stores made for checks after which the wrong version told something else than the right one, or left other
    bytes, or None."""
    drawn = faults.Stores(given.seed, Cheap)
    wrong, right = build(Cheap), Scheme(Cheap)
    for i in range(given.faults):
        store = drawn.draw()
        lent = bytearray(store)
        if wrong.check(lent) != right.check(store) or lent != store:
            return i + 1
    return None


def by_whole_answers(given):
    """The number of lists after which a comparison that leaves nothing out found the rows of a count, or None: the ledger
    knows no rows, so right versions differ in it [02:W3.8]."""
    import compare
    kept, compare.compared = compare.compared, lambda call, answer: answer
    try:
        return by_lists(Scheme, Ledger, given, False)
    finally:
        compare.compared = kept


def found(wrong, example, after, stores, counts, checks):
    """Whether a wrong version was caught where it has to be."""
    if wrong in ROWS and not (example and counts) or wrong in SEEN and not (example and checks) or wrong in MARKS and not example:
        return False
    if wrong in IN_LISTS:
        return bool(after)
    return bool(after or stores if wrong in FORMS + MARKS else example or after)


def caught(given):
    missed = faults = 0
    for wrong in STORES + LEDGERS:
        pair = (wrong, Ledger) if wrong in STORES else (Scheme, wrong)
        try:
            example = by_examples(*pair)
            stores = by_hostile(wrong, given) if wrong in FORMS + MARKS_ON_STORES else None
            counts = by_counts(wrong, given) if wrong in ROWS else None
            checks = by_checks(wrong, given) if wrong in SEEN else None
            # Lists that can show nothing are left out, for their time.
            after = by_lists(*pair, given, wrong in FORMS + MARKS) if wrong in IN_LISTS or not (stores or counts or checks) else None
        except Exception:
            print("FAULT in %s, which shows nothing:" % wrong.__name__)
            traceback.print_exc(file=sys.stdout)
            faults += 1
            continue
        shown = ["after %d" % n if n else "-" for n in (after, stores, counts, checks)]
        print("%-30s examples: %-16s lists: %-10s hostile stores: %-11s counts: %-10s checks: %s" % (wrong.__name__, example or "-", *shown),
              flush=True)
        missed += not found(wrong, example, after, stores, counts, checks)
    whole = by_whole_answers(given)
    print("rows of a count compared with the ledger: a difference %s" % ("after %d lists" % whole if whole else "was not found"))
    missed += not whole
    print("%d wrong versions, %d not caught, %d at fault" % (len(STORES + LEDGERS) + 1, missed, faults))
    return 1 if missed or faults else 0
