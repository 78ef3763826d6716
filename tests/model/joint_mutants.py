"""Wrong versions of store and ledger: what document 02, request 4, could be taken for. mutants.py holds them against the
examples, the lists and the hostile stores.
"""
import struct

import calls
import scheme
from calls import Done, Refused
from ledger import Ledger
from scheme import Scheme, free, number, parts, row, tables, used, used_rows

# Tokens, nonces and rows of R. What insert and test agree in shows in the bytes alone.


class MarkOverIdAlone(Scheme):
    def r_mark(self, rl, nonce, id):
        return self.F(rl, id)


class MarkOverIdThenNonce(Scheme):
    def r_mark(self, rl, nonce, id):
        return self.F(rl, id + nonce)


class MarkNoncesBeforeCounters(Scheme):
    def nonces_for(self, nonces, j):
        return nonces[:j], nonces[-1], nonces[j:2 * j]


class MarkNoncesFirst(Scheme):
    def nonces_for(self, nonces, j):
        return nonces[j + 1:], nonces[j], nonces[:j]


class MarkNoncesOfEntries(Scheme):
    """M's nonces once more."""
    def nonces_for(self, nonces, j):
        return nonces[:j], nonces[j], nonces[:j]


class LogIsTokensEnd(Scheme):
    """The S row is the token's last 44 bytes."""
    def log_part(self, token):
        return token[-44:]


class MarkKeyFromThree(Scheme):
    def mark_key(self, key, name, value):
        return self.F(self.master(key, 3), self.label(name, value))


class MarkKeyIsCounterKey(Scheme):
    def mark_key(self, key, name, value):
        return self.counter_key(key, name, value)


class MarkKeyPerShare(Scheme):
    def mark_key_of_insert(self, key, name, value, u):
        return self.F(self.mark_key(key, name, value), number(u))


class PartWithMarkKeyFirst(Scheme):
    def part_token(self, key, name, value):
        token = super().part_token(key, name, value)
        return token if isinstance(token, Refused) else token[96:] + token[:96]


class OneRowForEqualIds(Scheme):
    """Of an insert's equal ids the first alone gets an R row."""
    def put_marks(self, store, rl, nonces, ids):
        firsts = {id: nonce for nonce, id in reversed(list(zip(nonces, ids)))}
        super().put_marks(store, rl, list(firsts.values()), list(firsts))


class NoRowForKnownId(Scheme):
    """An id that tests yes gets no R row."""
    def put_marks(self, store, rl, nonces, ids):
        new = [(nonce, id) for nonce, id in zip(nonces, ids) if not self.tests(store, rl, id)]
        super().put_marks(store, rl, [nonce for nonce, _ in new], [id for _, id in new])


def moved(before):
    """21 right before another number."""
    class Wrong(Scheme):
        def room_conditions(self, store, count, j):
            *others, last = super().room_conditions(store, count, j)
            for pair in others:
                if pair[0] == before:
                    yield last
                yield pair
    return Wrong


class TwentyOneBeforeSeventeen(moved(17)):
    pass


class TwentyOneBeforeFifteen(moved(15)):
    pass


class TwentyOneTooEarly(Scheme):
    def room_conditions(self, store, count, j):
        yield from list(super().room_conditions(store, count, j))[:-1]
        yield 21, len(free(store, tables(store)["R"])) <= j


class TwentyOneToldAsFifteen(Scheme):
    def room_conditions(self, store, count, j):
        for refusal, holds in super().room_conditions(store, count, j):
            yield 15 if refusal == 21 else refusal, holds


class EraseOfMarksWithReverseAlone(Scheme):
    """R rows are freed only where V has a row of the id."""
    def free_marks(self, store, id, reverse):
        if reverse:
            super().free_marks(store, id, reverse)


class EraseLeavesMarks(Scheme):
    def free_marks(self, store, id, reverse):
        pass


class EraseOfOneMark(Scheme):
    def free_marks(self, store, id, reverse):
        r = tables(store)["R"]
        self.free_rows(store, "R", [i for i in used(store, r) if row(store, r, i)[1:17] == id][:1])


class EraseOfAsManyMarksAsReverse(Scheme):
    def free_marks(self, store, id, reverse):
        r = tables(store)["R"]
        self.free_rows(store, "R", [i for i in used(store, r) if row(store, r, i)[1:17] == id][:len(reverse)])


class EraseCountsMarks(Scheme):
    """The answer is the R rows freed."""
    def erase(self, store, id):
        before = bytes(store)
        answer = super().erase(store, id)
        if isinstance(answer, Refused):
            return answer
        return Done((sum(r[1:17] == id for r in used_rows(before, tables(before)["R"])),))


class OrderAnswersWithoutMarks(Scheme):
    def ordered(self, store):
        return super().ordered(store) - len(used(store, tables(store)["R"]))


# The header


def header_read(accepted=lambda h: all(1 <= rows <= 4096 for rows in h[1:]), versions=(2,), order="mcsr"):
    """A header read in another way."""
    class Wrong(Scheme):
        def header(self, store):
            if len(store) < 10 or store[0] not in versions:
                return None
            p, *rows = struct.unpack(">B4H", store[1:10])
            h = scheme.Header(p=p, **dict(zip(order, rows)))
            return h if p <= 15 and accepted(h) and len(store) == scheme.length_of(*h[1:]) else None

        def written_header(self, p, *rows):
            rows = dict(zip("mcsr", rows))
            return bytes([versions[0], p]) + b"".join(rows[name].to_bytes(2, "big") for name in order)
    return Wrong


class HeaderMarksUnchecked(header_read(lambda h: all(1 <= rows <= 4096 for rows in h[1:4]))):
    """Any r."""


class HeaderNoMarksAccepted(header_read(lambda h: all(1 <= rows <= 4096 for rows in h[1:4]) and h.r <= 4096)):
    pass


class HeaderManyMarksAccepted(header_read(lambda h: all(1 <= rows <= 4096 for rows in h[1:4]) and h.r >= 1)):
    pass


class VersionOneAccepted(header_read(versions=(2, 1))):
    pass


class VersionOneWritten(header_read(versions=(1,))):
    pass


class MarksBeforeLog(header_read(order="mcrs")):
    """r before s in the header."""


# Tests


class TestOfFirstRow(Scheme):
    """Of the id's R rows the first alone."""
    def tests(self, store, rl, id):
        rows = [r for r in used_rows(store, tables(store)["R"]) if r[1:17] == id]
        return bool(rows) and self.carries(rows[0], rl, id)


class TestMissesLastRow(Scheme):
    """The last used row of R."""
    def tests(self, store, rl, id):
        rows = used_rows(store, tables(store)["R"])[:-1]
        return any(r[1:17] == id and self.carries(r, rl, id) for r in rows)


class TestOfEveryRow(Scheme):
    """The row's id is left out: a row of another id that carries the R mark of this one is a yes."""
    def tests(self, store, rl, id):
        return any(self.carries(r, rl, id) for r in used_rows(store, tables(store)["R"]))


class TestOfLabelAlone(Scheme):
    """Whether any id has the label."""
    def tests(self, store, rl, id):
        return any(self.carries(r, rl, r[1:17]) for r in used_rows(store, tables(store)["R"]))


class TestOfIdAlone(Scheme):
    def carries(self, r, rl, id):
        return True


class TestByThirtyOneBytes(Scheme):
    """The R mark's last byte is left out."""
    def carries(self, r, rl, id):
        return r[29:60] == self.r_mark(rl, r[17:29], id)[:31]


class TestCountsRows(Scheme):
    def test(self, store, id, token):
        answer = super().test(store, id, token)
        if isinstance(answer, Refused):
            return answer
        return Done((sum(r[1:17] == id and self.carries(r, token, id) for r in used_rows(store, tables(store)["R"])),))


class TestOfStateFirst(Scheme):
    """10, 11 and 20 before 5 and 6."""
    def test_all_conditions(self, store, id, token):
        yield from self.state_conditions(store)
        yield from calls.test_conditions(id, len(token))


# Joint finds: which part is chosen


class TieToLater(Scheme):
    def chosen(self, counts):
        return len(counts) - 1 - counts[::-1].index(min(counts))


class GreatestChosen(Scheme):
    def chosen(self, counts):
        return counts.index(max(counts))


class FirstChosen(Scheme):
    def chosen(self, counts):
        return 0


class LeastByIdsListed(Scheme):
    def judged(self, store, part):
        return len(self.once(self.shares(store, part[:96])))


class LeastByEntriesListed(Scheme):
    """Repeats counted, erased entries not."""
    def judged(self, store, part):
        return sum(map(len, self.shares(store, part[:96])))


class LeastByShareZero(Scheme):
    def judged(self, store, part):
        return self.counts(store, part[64:96])[0]


# Joint finds: damage


class Undamaged(Scheme):
    """A damaged part counts as the greatest of all."""
    def judged(self, store, part):
        counts = self.counts(store, part[64:96])
        return float("inf") if counts is None else sum(counts)


class DamageInChosenAlone(Undamaged):
    def read_for_damage(self, store, given):
        return [given[self.chosen([self.judged(store, part) for part in given])]]


class DamageInFirstAlone(Undamaged):
    def read_for_damage(self, store, given):
        return given[:1]


# Joint finds: which parts test


def asked_of(change):
    class Wrong(Scheme):
        def asked(self, given, at):
            return change(super().asked(given, at), given, at)
    return Wrong


class LastTestLeftOut(asked_of(lambda others, given, at: others[:-1])):
    pass


class FirstTestLeftOut(asked_of(lambda others, given, at: others[1:])):
    pass


class TestsBeforeChosenAlone(asked_of(lambda others, given, at: given[:at])):
    pass


class TestsAfterChosenAlone(asked_of(lambda others, given, at: given[at + 1:])):
    pass


class ChosenTestedToo(asked_of(lambda others, given, at: given)):
    """No list of calls can show it."""


class EqualPartsTestedOnce(asked_of(lambda others, given, at: [part for part in others if part != given[at]])):
    """A part that equals the chosen one isn't tested; no list of calls can show it."""


class NoTests(asked_of(lambda others, given, at: [])):
    pass


class AnyPartTests(Scheme):
    def kept(self, store, given):
        at = self.chosen([self.judged(store, part) for part in given])
        found, others = self.once(self.shares(store, given[at][:96])), self.asked(given, at)
        return [id for id in found if not others or any(self.tests(store, part[96:], id) for part in others)]


class TestsByFind(Scheme):
    """Kept are ids that every other part finds; no list of calls can show it."""
    def kept(self, store, given):
        at = self.chosen([self.judged(store, part) for part in given])
        others = [self.once(self.shares(store, part[:96])) for part in self.asked(given, at)]
        return [id for id in self.once(self.shares(store, given[at][:96])) if all(id in found for found in others)]


# Joint finds: what is given


def kept_as(change):
    class Wrong(Scheme):
        def kept(self, store, given):
            return change(self, store, given, super().kept(store, given))
    return Wrong


class KeptInOrderOfBytes(kept_as(lambda self, store, given, kept: sorted(kept))):
    pass


class KeptInOrderOfFirst(kept_as(lambda self, store, given, kept:
                                 sorted(kept, key=self.once(self.shares(store, given[0][:96]) + [kept]).index))):
    pass


class KeptWithRepeats(Scheme):
    def kept(self, store, given):
        kept = super().kept(store, given)
        at = self.chosen([self.judged(store, part) for part in given])
        return [id for ids in self.shares(store, given[at][:96]) for id in ids if id in kept]


def given_as(change):
    """A wrong version that knows the ids that the chosen part finds."""
    class Wrong(Scheme):
        def joint_find(self, store, given, output):
            lent = bytes(output)
            answer = super().joint_find(store, given, output)
            if isinstance(answer, Refused) and answer.number != 18:
                return answer
            given = parts(given, 128)
            chosen = given[self.chosen([self.judged(store, part) for part in given])]
            return change(answer, self.once(self.shares(store, chosen[:96])), lent, output)
    return Wrong


def before_tests(answer, found, lent, output):
    if len(lent) >= 16 * len(found):
        return answer
    output[:] = lent
    return Refused(18, (len(found),))


class EighteenBeforeTests(given_as(before_tests)):
    """18 is judged on what the chosen part finds."""


class EighteenCarriesFound(given_as(lambda answer, found, lent, output: Refused(18, (len(found),)) if answer[0] == 18 else answer)):
    pass


def left_behind(answer, found, lent, output):
    if isinstance(answer, Done):
        n, all_ids = 16 * answer.values[0], b"".join(found)
        output[n:len(all_ids)] = all_ids[n:len(output)]
    return answer


class FoundLeftBehind(given_as(left_behind)):
    """What the chosen part finds is written first, and the ids kept over it."""


class JointWritesBeforeRefusing(Scheme):
    def joint_find(self, store, given, output):
        answer = super().joint_find(store, given, output)
        if isinstance(answer, Refused) and len(output) > 0:
            output[0] ^= 255
        return answer


# Joint finds: how many parts


def so_many(accepted):
    class Wrong(Scheme):
        def joint_find_all_conditions(self, store, given):
            yield 6, len(given) % 128 != 0 or not accepted(len(given) // 128)
            yield from list(super().joint_find_all_conditions(store, given[:128 * 8] or bytes(128)))
    return Wrong


class NineParts(so_many(lambda n: 1 <= n <= 9)):
    pass


class SevenParts(so_many(lambda n: 1 <= n <= 7)):
    pass


class TwoPartsAtLeast(so_many(lambda n: 2 <= n <= 8)):
    pass


class NoPartFindsNothing(so_many(lambda n: n <= 8)):
    def kept(self, store, given):
        return super().kept(store, given) if given else []


class SixBeforeMakings(Scheme):
    """Too many parts are 6 whatever their keys."""
    def joined_parts(self, made_from):
        return Refused(6, ()) if len(made_from) > 8 else super().joined_parts(made_from)


class LastMakingRefused(Scheme):
    def joined_parts(self, made_from):
        made = super().joined_parts(made_from[::-1])
        return made if isinstance(made, Refused) else super().joined_parts(made_from)


class RefusedMakingsLeftOut(Scheme):
    """A part that is not made is no part."""
    def joined_parts(self, made_from):
        made = [self.part_token(*part) for part in made_from]
        return b"".join(part for part in made if not isinstance(part, Refused))


# Ledgers


class LedgerTestOfShareZero(Ledger):
    def listed(self, id, name, value):
        return id in self.lists.get((name, value, 0), [])


class LedgerTestOfAnyField(Ledger):
    def listed(self, id, name, value):
        return any(id in ids for ids in self.lists.values())


class LedgerTestRemembersErased(Ledger):
    """An id that was ever inserted."""
    def __init__(self, *sizes):
        super().__init__(*sizes)
        self.ever = {}

    def insert(self, call):
        answer = super().insert(call)
        if isinstance(answer, Done):
            self.ever.setdefault((call.name, call.value), set()).update(parts(call.ids, 16))
        return answer

    def listed(self, id, name, value):
        return id in self.ever.get((name, value), ())


class LedgerTieToLater(Ledger):
    def chosen(self, fields):
        return super().chosen(fields[::-1])


class LedgerLeastByIdsListed(Ledger):
    def chosen(self, fields):
        lengths = [len(set(self.joined(*field))) for field in fields]
        return fields[lengths.index(min(lengths))]


class LedgerFirstChosen(Ledger):
    def chosen(self, fields):
        return fields[0]


class LedgerJoinsAnyPart(Ledger):
    """The union of the others."""
    def joint_find(self, call):
        told = super().joint_find(call)
        if isinstance(told[0], Refused) and told[0].number != 18:
            return told
        fields = calls.named_in(call)
        chosen = self.chosen(fields)
        ids = self.without_later_repeats(self.joined(*chosen))
        others = [field for field in fields if field != chosen]
        return self.given([id for id in ids if not others or any(self.listed(id, *field) for field in others)], call.output)


class LedgerEighteenBeforeTests(Ledger):
    def joint_find(self, call):
        told = super().joint_find(call)
        if isinstance(told[0], Refused):
            return told
        ids = self.without_later_repeats(self.joined(*self.chosen(calls.named_in(call))))
        return told if len(call.output) >= 16 * len(ids) else (Refused(18, (len(ids),)), call.output)


class LedgerSixBeforeMakings(Ledger):
    def joint_find_conditions(self, call):
        yield from calls.joint_find_conditions(calls.PART * len(call.parts))
        yield from calls.parts_conditions(call.parts)


def room(change):
    class Wrong(Ledger):
        def insert_conditions(self, call, pair, j):
            yield from change(self, list(super().insert_conditions(call, pair, j)), j)
    return Wrong


class LedgerTwentyOneBeforeSeventeen(room(lambda self, tests, j: tests[:-2] + tests[:-3:-1])):
    pass


class LedgerNoTwentyOne(room(lambda self, tests, j: tests[:-1])):
    pass


class LedgerTwentyOneTooEarly(room(lambda self, tests, j: tests[:-1] + [(21, self.total() + j >= self.r)])):
    pass


class LedgerTwentyOneByDifferentIds(room(lambda self, tests, j: tests[:-1] + [
        (21, sum(len(set(ids)) for ids in self.lists.values()) + j > self.r)])):
    pass


class LedgerOrderWithoutMarks(Ledger):
    def order(self):
        return Done((2 * self.total() + self.anchors + 2 * self.inserts,))


# Lists of calls show these, by an answer or a byte.
MARKS_IN_LISTS = [
    MarkOverIdAlone, MarkOverIdThenNonce, MarkNoncesBeforeCounters, MarkNoncesFirst, MarkNoncesOfEntries, LogIsTokensEnd,
    MarkKeyFromThree, MarkKeyIsCounterKey, MarkKeyPerShare, PartWithMarkKeyFirst, OneRowForEqualIds, NoRowForKnownId,
    TwentyOneBeforeSeventeen, TwentyOneBeforeFifteen, TwentyOneTooEarly, TwentyOneToldAsFifteen, EraseLeavesMarks, EraseOfOneMark,
    OrderAnswersWithoutMarks, VersionOneWritten, MarksBeforeLog, TestOfFirstRow, TestMissesLastRow, TestOfLabelAlone,
    TestOfIdAlone, TestCountsRows, TieToLater, GreatestChosen, FirstChosen, LeastByIdsListed, LeastByEntriesListed,
    LeastByShareZero, LastTestLeftOut, FirstTestLeftOut, TestsBeforeChosenAlone, TestsAfterChosenAlone, NoTests, AnyPartTests,
    KeptInOrderOfBytes, KeptInOrderOfFirst, KeptWithRepeats, EighteenBeforeTests, EighteenCarriesFound, FoundLeftBehind,
    JointWritesBeforeRefusing, NineParts, SevenParts, TwoPartsAtLeast, NoPartFindsNothing, SixBeforeMakings, LastMakingRefused,
    RefusedMakingsLeftOut]
# These show on stores that no list of calls makes.
MARKS_ON_STORES = [
    EraseOfMarksWithReverseAlone, EraseOfAsManyMarksAsReverse, EraseCountsMarks, HeaderMarksUnchecked, HeaderNoMarksAccepted,
    HeaderManyMarksAccepted, VersionOneAccepted, TestOfEveryRow, TestByThirtyOneBytes, TestOfStateFirst, DamageInChosenAlone,
    DamageInFirstAlone, ChosenTestedToo, EqualPartsTestedOnce, TestsByFind]
LEDGERS_MARKS = [
    LedgerTestOfShareZero, LedgerTestOfAnyField, LedgerTestRemembersErased, LedgerTieToLater, LedgerLeastByIdsListed,
    LedgerFirstChosen, LedgerJoinsAnyPart, LedgerEighteenBeforeTests, LedgerSixBeforeMakings, LedgerTwentyOneBeforeSeventeen,
    LedgerNoTwentyOne, LedgerTwentyOneTooEarly, LedgerTwentyOneByDifferentIds, LedgerOrderWithoutMarks]
