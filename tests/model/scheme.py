"""Labels, tokens, the store and the nine operations on its bytes: document 01, 'Labels' to
'Refusals from the state', with requests 1 to 4 of document 02, and the check, for all inputs, hostile stores among
them. Written from the papers.

Each table's rows fix its bytes [02:W2.5]: `arranged`. What leaves the row placing open is in placing.py.
"""
import struct
from bisect import bisect_left
from collections import namedtuple
from functools import lru_cache

import calls
from calls import Done, Refused, first
from primitives import number

GREATEST = 4294967295
# Table R stands after S [02:W4.1 W4.3].
WIDTH = {"M": 61, "V": 49, "C": 61, "S": 45, "R": 61}
VERSION = 2
HEADER = 10
MOST_ROWS = 4096

Header = namedtuple("Header", "p m c s r")
Table = namedtuple("Table", "start width rows")
# A counter read: B, Start, k, the count, and the C rows held as counters Start+1 to Start+k.
Counter = namedtuple("Counter", "anchors start k count held")


def label(name, value):
    """The name's length in groups of seven bits, the name, the value [01:LB2]."""
    length, groups = len(name), []
    while length > 127:
        groups.append(128 | length % 128)
        length //= 128
    return bytes(groups + [length]) + name + value


def length_of(m, c, s, r):
    """[02:W4.8]"""
    return 10 + 110 * m + 61 * c + 45 * s + 61 * r


def header(store):
    """The header's numbers, or None where refusal 10 applies [01:RS2] [02:W4.5 W4.6 W4.7]."""
    if len(store) < HEADER or store[0] != VERSION:
        return None
    h = Header(*struct.unpack(">B4H", store[1:10]))
    if h.p > 15 or not all(1 <= rows <= MOST_ROWS for rows in h[1:]):
        return None
    return h if len(store) == length_of(*h[1:]) else None


def tables(store):
    """Where the five tables stand [01:ST3] [02:W4.1]; for a store whose header is accepted."""
    return tables_of(*header(store)[1:])


@lru_cache(maxsize=None)
def tables_of(m, c, s, r):
    result, start = {}, HEADER
    for name, rows in (("M", m), ("V", m), ("C", c), ("S", s), ("R", r)):
        result[name] = Table(start, WIDTH[name], rows)
        start += WIDTH[name] * rows
    return result


def row(store, t, i):
    at = t.start + t.width * i
    return bytes(store[at:at + t.width])


def set_row(store, t, i, content):
    at = t.start + t.width * i
    assert len(content) == t.width
    store[at:at + t.width] = content


def used(store, t):
    return [i for i in range(t.rows) if store[t.start + t.width * i] == 1]


def free(store, t):
    return [i for i in range(t.rows) if store[t.start + t.width * i] == 0]


def used_rows(store, t):
    return [row(store, t, i) for i in used(store, t)]


def arranged(rows, t):
    """The table of these used rows: they come first [02:W2.1], ascending by all their bytes as unsigned, equal
    rows allowed [02:W2.2], which is how Python compares bytes; free rows are all zero [02:W2.3]."""
    rows = sorted(rows)
    assert len(rows) <= t.rows and all(len(r) == t.width and r[0] == 1 for r in rows)
    return b"".join(rows) + bytes(t.width * (t.rows - len(rows)))


def in_form(store, t):
    """Whether the table is the one of its used rows. The sentences themselves are in form.py."""
    return bytes(store[t.start:t.start + t.width * t.rows]) == arranged(used_rows(store, t), t)


def lookup(store, t, tag):
    """The used row of lowest index with the tag [01:ST13], or None. For M and C."""
    for i in used(store, t):
        at = t.start + t.width * i
        if store[at + 1:at + 33] == tag:
            return i
    return None


def marks_wrong(store, found=None):
    return any(store[t.start + t.width * i] > 1
               for t in (found or tables(store)).values() for i in range(t.rows))


def parts(text, width):
    return [text[i:i + width] for i in range(0, len(text), width)]


class Scheme:
    """The tokens and the operations over one suite."""

    def __init__(self, suite):
        self.F = suite.F
        self.E = suite.E

    # Keys and tokens

    def label(self, name, value):
        return label(name, value)

    def master(self, key, n):
        """KM, KC, KS for n = 1, 2, 3 [01:KT2]; F(K, 4) of RL [02:W4.4]."""
        return self.F(key, number(n))

    def address_key(self, key, name, value):
        return self.F(self.F(self.master(key, 1), number(1)), self.label(name, value))

    def entry_key(self, key, name, value):
        return self.F(self.F(self.master(key, 1), number(2)), self.label(name, value))

    def counter_key(self, key, name, value):
        return self.F(self.master(key, 2), self.label(name, value))

    def mark_key(self, key, name, value):
        """RL, the same in every share [02:W4.4]."""
        return self.F(self.master(key, 4), self.label(name, value))

    def insert_token(self, key, name, value, p, u, nonce):
        """p, MT, ME, CL, a nonce, E(KS, nonce, CL) [01:KT7], RL [02:W4.9]."""
        refused = first(calls.insert_token_conditions(key, name, value, p, u, nonce))
        if refused:
            return refused
        mt = self.F(self.address_key(key, name, value), number(u))
        me = self.F(self.entry_key(key, name, value), number(u))
        cl = self.F(self.counter_key(key, name, value), number(u))
        return bytes([p]) + mt + me + cl + nonce + self.E(self.master(key, 3), nonce, cl) \
            + self.mark_key_of_insert(key, name, value, u)

    def mark_key_of_insert(self, key, name, value, u):
        return self.mark_key(key, name, value)

    def find_token(self, key, name, value):
        refused = first(calls.field_token_conditions(key, name, value))
        if refused:
            return refused
        return (self.address_key(key, name, value) + self.entry_key(key, name, value)
                + self.counter_key(key, name, value))

    def count_token(self, key, name, value):
        refused = first(calls.field_token_conditions(key, name, value))
        return refused or self.counter_key(key, name, value)

    def compact_token(self, key):
        refused = first(calls.compact_token_conditions(key))
        return refused or self.master(key, 3)

    def mark_token(self, key, name, value):
        """What a test takes [02:W4.16]."""
        refused = first(calls.field_token_conditions(key, name, value))
        return refused or self.mark_key(key, name, value)

    def part_token(self, key, name, value):
        """A part of a joint find: find token, then RL [02:W4.18]."""
        refused = first(calls.field_token_conditions(key, name, value))
        return refused or self.find_token(key, name, value) + self.mark_key(key, name, value)

    # Making a store

    def make(self, store, p, m, c, s, r):
        """Writes the header and zeroes the rest [01:ST16]."""
        refused = first(self.make_conditions(store, p, m, c, s, r))
        if refused:
            return refused
        written = self.written_header(p, m, c, s, r)
        store[:] = written + bytes(len(store) - len(written))
        return Done(())

    def written_header(self, p, m, c, s, r):
        """Version 2 [02:W4.5], and r after s [02:W4.7]."""
        return bytes([VERSION, p]) + b"".join(n.to_bytes(2, "big") for n in (m, c, s, r))

    def make_conditions(self, store, p, m, c, s, r):
        """[02:W4.2]"""
        yield 7, p > 15 or not all(1 <= n <= MOST_ROWS for n in (m, c, s, r))
        yield 8, len(store) != length_of(m, c, s, r)

    # Where things stand, and what a store is refused by in every call

    def header(self, store):
        return header(store)

    def tables(self, store):
        return tables_of(*self.header(store)[1:])

    def store_conditions(self, store):
        """[01:RS2 RS3]; an order has no other [02:W2.9]."""
        yield 10, self.header(store) is None
        yield 11, marks_wrong(store, self.tables(store))

    # Tags

    def entry_tag(self, mt, address):
        return self.F(mt, number(address))

    def counter_tag(self, cl, position):
        return self.F(self.F(cl, number(1)), b"\1" + number(position))

    def anchor_tag(self, cl, anchor):
        return self.F(self.F(cl, number(1)), b"\2" + number(anchor))

    def r_mark(self, rl, nonce, id):
        """[02:W4.3]"""
        return self.F(rl, nonce + id)

    # Rows

    def arrange(self, store, t, rows):
        """These are the table's used rows from now on: others may move [02:W2.4]."""
        store[t.start:t.start + t.width * t.rows] = self.arranged(rows, t)

    def arranged(self, rows, t):
        return arranged(rows, t)

    def in_form(self, store, t):
        return in_form(store, t)

    def lookup(self, store, t, tag):
        return lookup(store, t, tag)

    def put(self, store, name, *contents):
        """New rows of a table."""
        t = self.tables(store)[name]
        self.arrange(store, t, used_rows(store, t) + list(contents))

    def free_rows(self, store, name, places):
        """Freeing a row zeroes all of it [01:ST14], and the rows behind it move up."""
        t = self.tables(store)[name]
        self.arrange(store, t, [row(store, t, i) for i in used(store, t) if i not in places])

    def state_conditions(self, store):
        """20, a table not in form [02:W2.11], comes right after 11 [02:W2.12]."""
        yield from self.store_conditions(store)
        yield 20, not all(self.in_form(store, t) for t in self.tables(store).values())

    def c_row(self, cl, tag, nonce, one, two):
        """A C row: mark, tag, nonce, two numbers under CE [01:ST9]."""
        ce = self.F(cl, number(2))
        return b"\1" + tag + nonce + self.E(ce, nonce, number(one) + number(two))

    def put_c(self, store, cl, tag, nonce, one, two):
        self.put(store, "C", self.c_row(cl, tag, nonce, one, two))

    def open_c(self, store, cl, i):
        r = row(store, self.tables(store)["C"], i)
        plain = self.E(self.F(cl, number(2)), r[33:45], r[45:61])
        return int.from_bytes(plain[:8], "big"), int.from_bytes(plain[8:], "big")

    # Reading a counter

    def read(self, store, cl):
        """The counter of CL, or None for damage [01:RC1 to RC6].

        Anchor B is tested before the counters are walked: damage there is damage
        even where a counter follows it.
        """
        t = self.tables(store)["C"]
        anchors, start, count, held = 0, 0, 0, []
        while anchors < t.rows and self.lookup(store, t, self.anchor_tag(cl, anchors + 1)) is not None:
            anchors += 1
        if anchors > 0:
            at = self.lookup(store, t, self.anchor_tag(cl, anchors))
            start, count = self.open_c(store, cl, at)
            if start > GREATEST or count > GREATEST:
                return None
        while len(held) < t.rows:
            at = self.lookup(store, t, self.counter_tag(cl, start + len(held) + 1))
            if at is None:
                break
            held.append(at)
        if held:
            zero, count = self.open_c(store, cl, held[-1])
            if zero != 0 or count > GREATEST:
                return None
        return Counter(anchors, start, len(held), count, held)

    # Insert

    def insert(self, store, token, nonces, ids):
        refused = first(self.insert_all_conditions(store, token, nonces, ids))
        if refused:
            return refused
        mt, me, cl = token[1:33], token[33:65], token[65:97]
        counter = self.read(store, cl)
        ids = parts(ids, 16)
        of_entries, of_counter, of_marks = self.nonces_for(parts(nonces, 12), len(ids))
        first_address = self.next_address(store, mt, counter)
        tags = [self.entry_tag(mt, first_address + i) for i in range(len(ids))]
        self.put(store, "M", *(b"\1" + tag + nonce + self.E(me, nonce, id)
                               for tag, nonce, id in zip(tags, of_entries, ids)))
        self.put(store, "V", *(b"\1" + id + tag for tag, id in zip(tags, ids)))
        new = counter.count + len(ids)
        self.put_counter(store, cl, counter, of_counter, new)
        self.put(store, "S", b"\1" + self.log_part(token))
        self.put_marks(store, token[141:], of_marks, ids)
        return Done((new,))

    def nonces_for(self, nonces, j):
        """One for each id, one for the counter, and R's after these, one for each id [02:W4.11 W4.12]."""
        return nonces[:j], nonces[j], nonces[j + 1:]

    def log_part(self, token):
        """The 44 bytes before RL [02:W4.10]."""
        return token[97:141]

    def put_marks(self, store, rl, nonces, ids):
        """One R row for each id [02:W4.13]: mark, id, nonce, R mark [02:W4.3]."""
        self.put(store, "R", *(b"\1" + id + nonce + self.r_mark(rl, nonce, id) for nonce, id in zip(nonces, ids)))

    def next_address(self, store, mt, counter):
        return counter.count + 1

    def put_counter(self, store, cl, counter, nonce, new):
        position = counter.start + counter.k + 1
        self.put_c(store, cl, self.counter_tag(cl, position), nonce, 0, new)

    def insert_all_conditions(self, store, token, nonces, ids):
        yield from calls.insert_conditions(len(token), nonces, ids)
        yield from self.state_conditions(store)
        yield 12, token[0] != self.header(store).p
        counter = self.read(store, token[65:97])
        yield 13, counter is None
        yield from self.room_conditions(store, counter.count, len(ids) // 16)

    def room_conditions(self, store, count, j):
        t = self.tables(store)
        yield 14, count + j > GREATEST
        yield 15, len(free(store, t["M"])) < j or len(free(store, t["V"])) < j
        yield 16, not free(store, t["C"])
        yield 17, not free(store, t["S"])
        yield 21, len(free(store, t["R"])) < j  # [02:W4.28 W4.30]

    # Erase

    def erase(self, store, id):
        """Frees all V rows of the id and each M row with a tag of theirs [01:OP4], and all R rows of the id [02:W4.14]. The
        answer is the V rows freed."""
        refused = first(self.erase_all_conditions(store, id))
        if refused:
            return refused
        v = self.tables(store)["V"]
        of_id = [i for i in used(store, v) if row(store, v, i)[1:17] == id]
        self.free_entries(store, {row(store, v, i)[17:] for i in of_id})
        self.free_rows(store, "V", of_id)
        self.free_marks(store, id, of_id)
        return Done((len(of_id),))

    def free_marks(self, store, id, reverse):
        """The id's R rows, whatever rows of it V has."""
        r = self.tables(store)["R"]
        self.free_rows(store, "R", [i for i in used(store, r) if row(store, r, i)[1:17] == id])

    def free_entries(self, store, tags):
        m = self.tables(store)["M"]
        self.free_rows(store, "M", [i for i in used(store, m) if row(store, m, i)[1:33] in tags])

    def erase_all_conditions(self, store, id):
        yield from calls.erase_conditions(id)
        yield from self.state_conditions(store)

    # Find and count

    def find(self, store, token, output):
        """Each id once, to the start of the output; later bytes stay [01:OP7]. 18 counts each id once
        [01:RS11] [02:W1.3].

        The walk is as long as the count: a forged count makes it long, so tests
        with forged stores keep an accepted count small.
        """
        refused = first(self.find_all_conditions(store, token))
        if refused:
            return refused
        return self.give(self.once(self.shares(store, token)), output)

    def give(self, found, output):
        if len(output) < 16 * len(found):
            return Refused(18, (len(found),))
        output[:16 * len(found)] = b"".join(found)
        return Done((len(found),))

    def once(self, shares):
        """Each id at the first place where it comes [02:W1.1 W1.2]."""
        return list(dict.fromkeys(id for ids in shares for id in ids))

    def shares(self, store, token):
        """For shares 0 to p the ids of their entries [01:OP6]."""
        result = []
        for u, count in enumerate(self.counts(store, token[64:])):
            mt = self.F(token[:32], number(u))
            me = self.F(token[32:64], number(u))
            result.append(self.share(store, mt, me, count))
        return result

    def share(self, store, mt, me, count):
        """The ids at addresses 1 to the count; a missing one is skipped [01:OP6]."""
        m, found = self.tables(store)["M"], []
        for address in range(1, count + 1):
            i = self.lookup(store, m, self.entry_tag(mt, address))
            if i is not None:
                r = row(store, m, i)
                found.append(self.E(me, r[33:45], r[45:61]))
        return found

    def find_all_conditions(self, store, token):
        yield from calls.find_conditions(len(token))
        yield from self.state_conditions(store)
        yield 13, self.counts(store, token[64:]) is None

    def counts(self, store, counter_key):
        """The counts of shares 0 to p, or None where one of the readings is damage."""
        readings = [self.read(store, self.F(counter_key, number(u)))
                    for u in range(self.header(store).p + 1)]
        return None if None in readings else [r.count for r in readings]

    def count(self, store, token):
        """The count, and the rows looked at for it [02:W3.8]; a refusal carries none."""
        refused = first(self.count_all_conditions(store, token))
        return refused or Done((sum(self.counts(store, token)), self.rows_read(store, token)))

    def count_all_conditions(self, store, token):
        yield from calls.count_conditions(len(token))
        yield from self.state_conditions(store)
        yield 13, self.counts(store, token) is None

    # Test and joint find

    def test(self, store, id, token):
        """1 for yes, 0 for no."""
        refused = first(self.test_all_conditions(store, id, token))
        return refused or Done((int(self.tests(store, token, id)),))

    def test_all_conditions(self, store, id, token):
        yield from calls.test_conditions(id, len(token))
        yield from self.state_conditions(store)

    def tests(self, store, rl, id):
        """Whether an R row of that id carries RL's R mark [02:W4.17]."""
        return any(r[1:17] == id and self.carries(r, rl, id) for r in used_rows(store, self.tables(store)["R"]))

    def carries(self, r, rl, id):
        return r[29:61] == self.r_mark(rl, r[17:29], id)

    def joint_find(self, store, given, output):
        """18 is judged on the ids kept [02:W4.23]."""
        refused = first(self.joint_find_all_conditions(store, given))
        return refused or self.give(self.kept(store, parts(given, 128)), output)

    def joint_find_all_conditions(self, store, given):
        """Damage in any part is 13 [02:W4.22]."""
        yield from calls.joint_find_conditions(len(given))
        yield from self.state_conditions(store)
        yield 13, any(self.counts(store, part[64:96]) is None for part in self.read_for_damage(store, parts(given, 128)))

    def read_for_damage(self, store, given):
        return given

    def kept(self, store, given):
        """The find of the chosen part, and of its ids those for which every other part tests yes [02:W4.19 W4.21]."""
        at = self.chosen([self.judged(store, part) for part in given])
        found = self.once(self.shares(store, given[at][:96]))
        return [id for id in found if all(self.tests(store, part[96:], id) for part in self.asked(given, at))]

    def judged(self, store, part):
        """A part's count, erased entries included."""
        return sum(self.counts(store, part[64:96]))

    def chosen(self, counts):
        """The place of the least [02:W4.19], the earlier on a tie [02:W4.20]."""
        return counts.index(min(counts))

    def asked(self, given, at):
        """The parts that test: all but the chosen one."""
        return given[:at] + given[at + 1:]

    # The rows that a count looks at

    def rows_read(self, store, token):
        """The sum over shares 0 to p."""
        tags = self.tags_met(store)
        return sum(self.rows_at(tags, tag) for u in range(self.header(store).p + 1)
                   for tag in self.looked_up(store, self.F(token, number(u))))

    def tags_met(self, store):
        """The tags of the used rows of C, ascending as unsigned bytes, one for each row."""
        return sorted(r[1:33] for r in used_rows(store, self.tables(store)["C"]))

    def looked_up(self, store, cl):
        """The tags that are looked up in a share, once each [02:W3.6]: anchors 1 to B+1 [02:W3.4] and counters Start+1 to
        Start+k+1 [02:W3.5]."""
        counter = self.read(store, cl)
        return ([self.anchor_tag(cl, n + 1) for n in range(self.lookups(store, counter.anchors))]
                + [self.counter_tag(cl, counter.start + n + 1) for n in range(self.lookups(store, counter.k))])

    def lookups(self, store, held):
        """How many of a kind, so many of them held: one more, and never more than c [02:W3.7]."""
        return min(held + 1, self.header(store).c)

    def rows_at(self, tags, tag):
        """Those with a smaller tag [02:W3.2], and one more if a row follows them [02:W3.3]."""
        smaller = bisect_left(tags, tag)
        return smaller + (smaller < len(tags))

    # Compaction

    def compact(self, store, token, nonces):
        """Distinct CL of S in order of first row [01:OP10]; each uses a nonce only if k > 0. The tables are in form
        after each CL."""
        refused = first(self.compact_all_conditions(store, token, nonces))
        if refused:
            return refused
        anchors, freed, nonces = 0, 0, parts(nonces, 12)
        for cl in self.to_treat(self.labels_of_s(store, token)):
            counter = self.read(store, cl)
            if counter is None:
                return Refused(13, (anchors, freed))
            if self.writes_anchor(counter):
                self.treat(store, cl, counter, nonces[anchors])
                anchors += 1
                freed += counter.k
            self.free_s(store, token, cl)
        return Done((anchors, freed))

    def compact_all_conditions(self, store, token, nonces):
        yield from calls.compact_conditions(len(token), nonces)
        yield from self.state_conditions(store)
        yield 19, len(nonces) // 12 < len(used(store, self.tables(store)["S"]))

    def labels_of_s(self, store, token):
        """The CL of each used S row, in order of the rows."""
        s = self.tables(store)["S"]
        rows = [row(store, s, i) for i in used(store, s)]
        return [self.E(token, r[1:13], r[13:45]) for r in rows]

    def to_treat(self, labels):
        return list(dict.fromkeys(labels))

    def writes_anchor(self, counter):
        return counter.k > 0

    def treat(self, store, cl, counter, nonce):
        """Frees the rows that the reading held, then writes anchor B+1 [01:OP11]."""
        self.free_rows(store, "C", counter.held)
        self.put_c(store, cl, self.anchor_tag(cl, counter.anchors + 1), nonce,
                   counter.start + counter.k, counter.count)

    def free_s(self, store, token, cl):
        s = self.tables(store)["S"]
        rows = [(i, row(store, s, i)) for i in used(store, s)]
        self.free_rows(store, "S", [i for i, r in rows if self.E(token, r[1:13], r[13:45]) == cl])

    # A store put in form

    def order(self, store):
        """Puts every table in form [02:W2.6], keeps every used row [02:W2.7], answers how many there are
        [02:W2.8]."""
        refused = first(self.order_conditions(store))
        if refused:
            return refused
        for t in self.tables(store).values():
            self.arrange(store, t, used_rows(store, t))
        return Done((self.ordered(store),))

    def ordered(self, store):
        return sum(len(used(store, t)) for t in self.tables(store).values())

    def order_conditions(self, store):
        """10 and 11 only [02:W2.9]."""
        yield from self.store_conditions(store)

    # What can be seen of a store without a key

    def check(self, store):
        """Seven numbers of rows that do not go together; nothing changes [check:1]."""
        refused = first(self.check_conditions(store))
        return refused or Done(self.faults(store))

    def check_conditions(self, store):
        """10, 11, 20 [check:1]."""
        yield from self.state_conditions(store)

    def faults(self, store):
        """[check:2 check:3 check:4 check:5 check:6 check:7 check:8]"""
        entries, counters = self.tags(store, "M"), self.tags(store, "C")
        tags, ids, labelled = self.reverse_tags(store), self.reverse_ids(store), self.labelled_ids(store)
        return (self.again(entries), self.again(counters), self.lacking(tags, entries), self.lacking(entries, tags),
                self.lacking(ids, labelled), self.lacking(labelled, ids), self.more(len(labelled), len(ids)))

    def tags(self, store, name):
        """Of the rows of M or of C."""
        return [r[1:33] for r in used_rows(store, self.tables(store)[name])]

    def reverse_tags(self, store):
        return [r[17:49] for r in used_rows(store, self.tables(store)["V"])]

    def reverse_ids(self, store):
        return [r[1:17] for r in used_rows(store, self.tables(store)["V"])]

    def labelled_ids(self, store):
        return [r[1:17] for r in used_rows(store, self.tables(store)["R"])]

    def again(self, tags):
        """How many a row before them has."""
        return sum(tag in tags[:at] for at, tag in enumerate(tags))

    def lacking(self, these, others):
        """How many of these are not among the others."""
        return sum(one not in others for one in these)

    def more(self, n, than):
        return n - than if n > than else 0

    # A call of a list: its token, then the operation

    def call(self, store, call):
        """What the call tells: its answer, and a find's or a joint find's whole output or None."""
        output = bytearray(call.output) if calls.has_output(call) else None
        token = self.token(call)
        if isinstance(token, Refused):
            return token, bytes(output) if output is not None else None
        if isinstance(call, calls.Insert):
            return self.insert(store, token, call.nonces, call.ids), None
        if isinstance(call, calls.Erase):
            return self.erase(store, call.id), None
        if isinstance(call, calls.Order):
            return self.order(store), None
        if isinstance(call, calls.Check):
            return self.check(store), None
        if isinstance(call, calls.Test):
            return self.test(store, call.id, token), None
        if calls.has_output(call):
            answer = (self.find if isinstance(call, calls.Find) else self.joint_find)(store, token, output)
            return answer, bytes(output)
        if isinstance(call, calls.Count):
            return self.count(store, token), None
        return self.compact(store, token, call.nonces), None

    def token(self, call):
        if isinstance(call, calls.Insert):
            return self.insert_token(call.key, call.name, call.value, call.p, call.u, call.nonce)
        if isinstance(call, (calls.Erase, calls.Order, calls.Check)):
            return None
        if isinstance(call, calls.Find):
            return self.find_token(call.key, call.name, call.value)
        if isinstance(call, calls.Count):
            return self.count_token(call.key, call.name, call.value)
        if isinstance(call, calls.Test):
            return self.mark_token(call.key, call.name, call.value)
        if isinstance(call, calls.JointFind):
            return self.joined_parts(call.parts)
        return self.compact_token(call.key)

    def joined_parts(self, made_from):
        """The parts of a joint find, made in order [02:W4.24]; the first making refused ends the call [02:W4.25]."""
        made = [self.part_token(*part) for part in made_from]
        refused = [part for part in made if isinstance(part, Refused)]
        return refused[0] if refused else b"".join(made)
