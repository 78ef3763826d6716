"""Fixed examples: document 01's L1 to L6 and its worked list G1 to G8, on store and ledger both, and lists with ids that
come more than once, with orders between, with tests and joint finds (document 02, requests 1, 2 and 4); tables in form and
out of it; the rows that a count looks at (request 3); R rows, tests and joint finds on forged stores; checks of stores with each
kind of fault; and refusals 7 to 21 on made and forged stores, in the paper's order.
"""
import faults
import form
import scheme
from calls import Compact, Count, Done, Erase, Find, Insert, JointFind, Order, Part, Refused, Test, compared, nonce_bytes
from ledger import Ledger
from primitives import Cheap, Real, chacha20_block, number

KEY = bytes(range(32))
NONCE = bytes(12)
HUE = (b"hue", b"red")
SIZE = (b"size", b"L")
BLUE = (b"hue", b"blue")
NAMELESS = (b"", b"blue")
GREATEST = scheme.GREATEST


class Wrong(Exception):
    pass


def expect(what, got, wanted):
    if got != wanted:
        raise Wrong("%s: got %r, expected %r" % (what, got, wanted))


def cipher():
    """RFC 8439, 2.3.2 and 2.4.2: the model's own ChaCha20."""
    block = chacha20_block(KEY, 1, bytes.fromhex("000000090000004a00000000"))
    expect("RFC 8439 2.3.2", block.hex(),
           "10f1e7e4d13b5915500fdd1fa32071c4c7d1f4c733c068030422aa9ac3d46c4e"
           "d2826446079faa0914c2d705d98b02a2b5129cd1de164eb9cbd083e8a2503c4e")
    text = (b"Ladies and Gentlemen of the class of '99: If I could offer you only one tip for "
            b"the future, sunscreen would be it.")
    expect("RFC 8439 2.4.2", Real.E(KEY, bytes.fromhex("000000000000004a00000000"), text).hex(),
           "6e2e359a2568f98041ba0728dd0d6981e97e7aec1d4360c20a27afccfd9fae0b"
           "f91b65c5524733ab8f593dabcd62b3571639d624e65152ab8f530c359f0861d8"
           "07ca0dbf500d6a6156a38e088a22b65e52bc514d16ccf806818ce91ab7793736"
           "5af90bbf74a35be6b40b8eedf2785e42874d")


def labels(build):
    """L1 to L6 [01:LB3 to LB8]."""
    label = build(Cheap).label
    expect("L1", label(b"a", b"").hex(), "0161")
    expect("L2", label(b"ab", b"c").hex(), "02616263")
    expect("L3", label(b"a", b"bc").hex(), "01616263")
    expect("L4", label(bytes(127), b"")[:1].hex(), "7f")
    expect("L5", label(bytes(128), b"")[:2].hex(), "8001")
    expect("L6", label(bytes(255), b"")[:2].hex(), "ff01")
    expect("label of the longest", len(label(bytes(255), bytes(1024))), 2 + 255 + 1024)


def id_of(letter):
    return letter.encode() * 16


def insert(field, u, letters, p=1):
    ids = b"".join(id_of(x) for x in letters)
    return Insert(KEY, *field, p, u, NONCE, bytes(nonce_bytes(len(letters))), ids)


def worked():
    """G1 to G8 as calls with what each tells [01:DY1 to DY9], for p = 1, m = c = s = 4, r = 4 [02:W4.31]."""
    lent = bytes([255]) * 80

    def find(letters):
        ids = b"".join(id_of(x) for x in letters)
        return Find(KEY, *HUE, lent), (Done((len(letters),)), ids + lent[len(ids):])

    def told(*values):
        return Done(values), None

    compact = Compact(KEY, bytes(12 * 4))
    count = Count(KEY, *HUE)
    return [
        ("G1", insert(HUE, 0, "AB"), told(2)), ("G1", insert(HUE, 1, "C"), told(1)),
        ("G1", *find("ABC")), ("G1", count, told(3)),
        ("G2", Erase(id_of("B")), told(1)), ("G2", *find("AC")), ("G2", count, told(3)),
        ("G3", compact, told(2, 2)), ("G3", *find("AC")),
        ("G4", insert(HUE, 0, "D"), told(3)), ("G4", *find("ADC")),
        ("G5", insert(HUE, 0, "EF"), (Refused(15, ()), None)),
        ("G6", Erase(id_of("A")), told(1)), ("G6", insert(HUE, 0, "EF"), told(5)),
        ("G6", *find("DEFC")),
        ("G7", Erase(id_of("C")), told(1)),
        ("G7", insert(SIZE, 0, "G"), (Refused(16, ()), None)),
        ("G8", compact, told(1, 2)), ("G8", insert(SIZE, 0, "G"), told(1)),
    ]


def repeated():
    """Calls with what each tells, where ids have several entries: each is found once [02:W1.1], at its first
    place [02:W1.2], which is another after an erase and a new insert; 18 by the different ids [02:W1.3];
    count [02:W1.4] and erase [02:W1.6] by entries. For p = 1, m = r = 9, c = s = 6."""
    def find(letters, ids=None):
        """A find with room for as many ids; refused where it finds more."""
        lent = bytes([255]) * (16 * (len(letters) if ids is None else ids))
        found = b"".join(id_of(x) for x in letters)
        if len(lent) < len(found):
            return Find(KEY, *HUE, lent), (Refused(18, (len(letters),)), lent)
        return Find(KEY, *HUE, lent), (Done((len(letters),)), found + lent[len(found):])

    def told(n):
        return Done((n,)), None

    count = Count(KEY, *HUE)
    return [
        ("R1", insert(HUE, 0, "AABA"), told(4)), ("R1", *find("AB")), ("R1", *find("AB", 1)),
        ("R1", *find("AB", 3)), ("R1", count, told(4)),
        ("R2", insert(HUE, 1, "CBA"), told(3)), ("R2", *find("ABC")), ("R2", *find("ABC", 2)),
        ("R2", *find("ABC", 6)), ("R2", count, told(7)),
        ("R3", insert(HUE, 0, "AABA"), (Refused(15, ()), None)), ("R3", *find("ABC", 0)),
        ("R4", Erase(id_of("A")), told(4)), ("R4", *find("BC")), ("R4", count, told(7)),
        ("R5", insert(HUE, 0, "A"), told(5)), ("R5", *find("BAC")), ("R5", insert(HUE, 1, "AB"), told(5)),
        ("R5", *find("BAC", 4)), ("R5", *find("BAC", 2)), ("R5", count, told(10)),
        ("R6", Compact(KEY, bytes(12 * 6)), (Done((2, 4)), None)), ("R6", *find("BAC")),
        ("R7", Erase(id_of("B")), told(3)), ("R7", *find("AC")), ("R7", Erase(id_of("A")), told(2)),
        ("R7", *find("C")), ("R7", count, told(10)),
    ]


def ordered():
    """Calls with what each tells, an order among them: it answers the used rows of all tables [02:W2.8], 3 for each
    entry [02:W4.13], 1 for each anchor, 2 for each insert since the last compaction, and no later answer is another
    [02:W2.10]. For p = 1, m = r = 6, c = s = 4."""
    def told(*values):
        return Done(values), None

    def find(letters):
        ids = b"".join(id_of(x) for x in letters)
        return Find(KEY, *HUE, bytes(16 * 4)), (Done((len(letters),)), ids + bytes(16 * 4 - len(ids)))

    return [
        ("O1", Order(), told(0)), ("O1", insert(HUE, 0, "BA"), told(2)), ("O1", Order(), told(8)), ("O1", *find("BA")),
        ("O2", insert(HUE, 1, "C"), told(1)), ("O2", Order(), told(13)), ("O2", insert(HUE, 0, "BB"), told(4)),
        ("O2", Order(), told(21)), ("O2", Order(), told(21)), ("O2", *find("BAC")),
        ("O3", Erase(id_of("B")), told(3)), ("O3", Order(), told(12)), ("O3", *find("AC")),
        ("O4", Compact(KEY, bytes(12 * 4)), told(2, 3)), ("O4", Order(), told(8)), ("O4", *find("AC")),
        ("O5", insert(SIZE, 0, "AA"), told(2)), ("O5", Order(), told(16)), ("O5", insert(SIZE, 1, "A"), told(1)),
        ("O5", insert(SIZE, 1, "A"), (Refused(16, ()), None)), ("O5", Order(), told(21)),
        ("O6", Compact(KEY, bytes(12 * 4)), told(2, 2)), ("O6", Order(), told(19)), ("O6", Erase(id_of("A")), told(4)),
        ("O6", Order(), told(7)), ("O6", Count(KEY, *HUE), told(5)), ("O6", *find("C")),
    ]


def jointly():
    """Calls with what each tells, tests and joint finds among them. For p = 1, m = 8, c = s = 6, r = 7."""
    lent = bytes([255])

    def told(*values):
        return Done(values), None

    def join(room, fields, letters="", refused=None):
        """A joint find of these fields, a field of None being one whose key is refused."""
        parts = [Part(KEY, *field) if field else Part(KEY[:31], *HUE) for field in fields]
        ids = b"".join(id_of(x) for x in letters)
        answer = (refused, lent * room) if refused else (Done((len(letters),)), ids + lent * (room - len(ids)))
        return JointFind(parts, lent * room), answer

    def test(field, letter, says):
        return Test(KEY, *field, id_of(letter)), told(says)

    red_and_l, l_and_red = [HUE, SIZE], [SIZE, HUE]
    return [
        # In the order of the field with the fewer made, whichever part it is [02:W4.19 W4.21]; one part alone is the find.
        ("J1", insert(HUE, 0, "ABC"), told(3)), ("J1", insert(SIZE, 1, "CA"), told(2)), ("J1", *join(40, red_and_l, "CA")),
        ("J1", *join(40, l_and_red, "CA")), ("J1", *join(64, [HUE], "ABC")),
        # A test says whether the id is in a list of the field and value, of any share [02:W4.17].
        ("J2", *test(HUE, "A", 1)), ("J2", *test(SIZE, "A", 1)), ("J2", *test(SIZE, "B", 0)), ("J2", *test(BLUE, "A", 0)),
        ("J2", *join(16, [HUE, BLUE])),
        # The earlier on a tie of 3 made [02:W4.20].
        ("J3", insert(SIZE, 0, "D"), told(1)), ("J3", *join(32, red_and_l, "AC")), ("J3", *join(32, l_and_red, "CA")),
        # An erased id is in no joint find and tests no [02:W4.14]; 18 by the ids kept [02:W4.23].
        ("J4", Erase(id_of("C")), told(2)), ("J4", *join(16, red_and_l, "A")), ("J4", *join(15, red_and_l, refused=Refused(18, (1,)))),
        ("J4", *test(HUE, "C", 0)), ("J4", *test(HUE, "B", 1)),
        # A compaction changes nothing of it.
        ("J5", Compact(KEY, bytes(12 * 6)), told(3, 3)), ("J5", Erase(id_of("B")), told(1)), ("J5", *join(16, l_and_red, "A")),
        # 3 entries are listed: 5 more have room in M and not in R, 4 have in both [02:W4.28 W4.29 W4.30].
        ("J6", insert(HUE, 0, "EFGHI"), (Refused(21, ()), None)), ("J6", insert(HUE, 0, "EFGH"), told(7)),
        # The parts are made in order, the first refused ends the call; then 6 by their number [02:W4.18 W4.24 W4.25].
        ("J7", *join(8, [], refused=Refused(6, ()))), ("J7", *join(8, [BLUE] * 8)), ("J7", *join(8, [BLUE] * 9, refused=Refused(6, ()))),
        ("J7", *join(8, [BLUE] * 9 + [None], refused=Refused(1, ()))), ("J7", *join(8, [None, NAMELESS], refused=Refused(1, ()))),
        ("J7", *join(8, [BLUE, NAMELESS, None], refused=Refused(2, ()))),
    ]


def least():
    """The least is by the number made, and not by the ids still listed: hue=red has 3 made and 3 listed, size=L 5 made and 2
    listed, in another order [02:W4.19]. Then A has two entries under hue=red, and is given once. For p = 0, m = r = 8,
    c = s = 4."""
    def told(n):
        return Done((n,)), None

    def join(*fields):
        return JointFind([Part(KEY, *field) for field in fields], bytes(32)), (Done((2,)), id_of("A") + id_of("B"))

    return [("K1", insert(HUE, 0, "ABF", p=0), told(3)), ("K1", insert(SIZE, 0, "BACDE", p=0), told(5))] + \
           [("K2", Erase(id_of(letter)), told(1)) for letter in "CDE"] + [("K3", *join(HUE, SIZE)), ("K3", *join(SIZE, HUE))] + \
           [("K4", insert(HUE, 0, "A", p=0), told(4)), ("K4", *join(HUE, SIZE))]


def made(build, suite, p, *sizes):
    model = build(suite)
    store = bytearray(scheme.length_of(*sizes))
    expect("making", model.make(store, p, *sizes), Done(()))
    return model, store


def run_calls(build, build_ledger, sizes, calls):
    for suite in (Cheap, Real):
        model, store = made(build, suite, *sizes)
        ledger = build_ledger(*sizes)
        for name, call, wanted in calls:
            expect(name + " in the ledger", ledger.call(call), wanted)
            answer, output = model.call(store, call)
            expect(name + " in the store", (compared(call, answer), output), wanted)
            # Whatever the call, its rows go together after it [check:10].
            expect(name + ", checked", model.check(store), ledger.check())


def making(build):
    """7 before 8, the lengths by the formula [01:ST3] [02:W4.8], the header [02:W4.5 W4.7], [01:RI8] [02:W4.2], [01:RI9]."""
    expect("287", scheme.length_of(1, 1, 1, 1), 287)
    expect("1118", scheme.length_of(4, 4, 4, 4), 1118)
    expect("560", scheme.length_of(1, 2, 3, 3), 560)
    model = build(Cheap)
    for length, p, m, c, s, r, wanted in (
            (287, 16, 1, 1, 1, 1, 7), (287, 0, 0, 1, 1, 1, 7), (287, 0, 1, 4097, 1, 1, 7), (287, 0, 1, 1, 1, 0, 7),
            (226, 0, 1, 1, 1, 0, 7), (287, 0, 1, 1, 1, 4097, 7), (226 + 61 * 4097, 0, 1, 1, 1, 4097, 7), (287, 257, 1, 1, 1, 1, 7),
            (0, 16, 1, 1, 1, 1, 7), (286, 15, 1, 1, 1, 1, 8), (288, 15, 1, 1, 1, 1, 8), (224, 15, 1, 1, 1, 1, 8),
            (287, 0, 1, 1, 1, 2, 8), (0, 0, 1, 1, 1, 1, 8)):
        store = bytearray(b"x" * length)
        expect("making", model.make(store, p, m, c, s, r), Refused(wanted, ()))
        expect("making refused leaves the slice", store, bytearray(b"x" * length))
    store = bytearray(b"x" * 287)
    expect("making", model.make(store, 15, 1, 1, 1, 1), Done(()))
    expect("a fresh store", store.hex(), "020f0001000100010001" + "00" * 277)
    store = bytearray(10 + 110 + 122 + 135 + 61 * 260)
    expect("making", model.make(store, 3, 1, 2, 3, 260), Done(()))
    expect("r after s", store[:10].hex(), "02030001000200030104")


def every_call(model, store, p):
    """The nine operations on a store, with tokens that are right for p."""
    token = model.insert_token(KEY, *HUE, p, 0, NONCE)
    return [("insert", lambda: model.insert(store, token, bytes(36), id_of("A"))),
            ("erase", lambda: model.erase(store, id_of("A"))),
            ("find", lambda: model.find(store, model.find_token(KEY, *HUE), bytearray(64))),
            ("count", lambda: model.count(store, model.count_token(KEY, *HUE))),
            ("compact", lambda: model.compact(store, model.compact_token(KEY), bytes(48))),
            ("order", lambda: model.order(store)),
            ("test", lambda: model.test(store, id_of("A"), model.mark_token(KEY, *HUE))),
            ("joint find", lambda: model.joint_find(store, model.part_token(KEY, *HUE) + model.part_token(KEY, *SIZE), bytearray(64))),
            ("check", lambda: model.check(store))]


def all_refuse(model, store, number_wanted, names=None):
    before = bytes(store)
    for name, call in every_call(model, store, 1):
        if names is None or name in names:
            expect(name, call(), Refused(number_wanted, ()))
            expect(name + " refused leaves the store", bytes(store), before)


def headers(build):
    """10 before 11 before 12 [01:RS2 to RS4]; version 1 is refused [02:W4.6], and r out of its range [02:W4.2]."""
    for at, byte in ((0, 0), (0, 1), (0, 3), (1, 16), (2, 17), (3, 0), (5, 5), (7, 0), (8, 17), (9, 0), (9, 5)):
        model, store = made(build, Cheap, 1, 4, 4, 4, 4)
        store[10] = 2
        store[at] = byte
        all_refuse(model, store, 10)
    for rows in (0, 4097):
        model, store = made(build, Cheap, 1, 4, 4, 4, 4)
        store[8:10] = rows.to_bytes(2, "big")
        store[10 + 4 * (110 + 61 + 45):] = bytes(61 * rows)
        all_refuse(model, store, 10)
    for length in (0, 7, 8, 9, 10, 1117, 1119):
        model, store = made(build, Cheap, 1, 4, 4, 4, 4)
        all_refuse(model, (store + bytes(1))[:length], 10)
    for name, t in scheme.tables(store).items():
        for mark in (2, 255):
            model, store = made(build, Cheap, 1, 4, 4, 4, 4)
            store[t.start + t.width * 3] = mark
            all_refuse(model, store, 11)
            token = model.insert_token(KEY, *HUE, 0, 0, NONCE)
            answer = model.insert(store, token, bytes(36), id_of("A"))
            expect("11 before 12", answer, Refused(11, ()))


def input_order(build):
    """Refusals of the input by number, before those of the state [01:RI1]."""
    model, store = made(build, Cheap, 1, 4, 4, 4, 4)
    store[0] = 9
    token = model.insert_token(KEY, *HUE, 1, 0, NONCE)
    for call, wanted in (
            (lambda: model.insert_token(b"", b"", b"", 16, 0, b""), 1),
            (lambda: model.insert_token(KEY, b"", b"", 16, 0, b""), 2),
            (lambda: model.insert_token(KEY, bytes(256), b"", 1, 0, NONCE), 2),
            (lambda: model.insert_token(KEY, b"a", bytes(1025), 1, 0, NONCE), 2),
            (lambda: model.insert_token(KEY, b"a", b"", 16, 0, b""), 3),
            (lambda: model.insert_token(KEY, b"a", b"", 1, 2, b""), 3),
            (lambda: model.insert_token(KEY, b"a", b"", 1, 1, b""), 4),
            (lambda: model.mark_token(b"", b"", b""), 1), (lambda: model.mark_token(KEY, b"", b""), 2),
            (lambda: model.part_token(b"", b"", b""), 1), (lambda: model.part_token(KEY, b"a", bytes(1025)), 2),
            (lambda: model.insert(store, b"", b"", b""), 4),
            (lambda: model.insert(store, b"", bytes(12), b""), 5),
            (lambda: model.insert(store, token, bytes(24), bytes(16)), 4),
            (lambda: model.insert(store, token, bytes(48), bytes(16)), 4),
            (lambda: model.insert(store, b"", bytes(36), bytes(17)), 5),
            (lambda: model.insert(store, b"", bytes(12 * 131), bytes(16 * 65)), 5),
            (lambda: model.insert(store, b"", bytes(36), bytes(16)), 6),
            (lambda: model.insert(store, token[:141], bytes(36), bytes(16)), 6),
            (lambda: model.insert(store, token, bytes(36), bytes(16)), 10),
            (lambda: model.erase(store, bytes(15)), 5),
            (lambda: model.find(store, bytes(95), bytearray()), 6),
            (lambda: model.count(store, bytes(33)), 6),
            (lambda: model.compact(store, b"", bytes(13)), 4),
            (lambda: model.compact(store, b"", bytes(24)), 6),
            (lambda: model.test(store, bytes(15), b""), 5), (lambda: model.test(store, bytes(17), bytes(32)), 5),
            (lambda: model.test(store, bytes(16), bytes(31)), 6), (lambda: model.test(store, bytes(16), bytes(33)), 6),
            (lambda: model.test(store, bytes(16), bytes(32)), 10),
            *((lambda n=n: model.joint_find(store, bytes(n), bytearray()), 6) for n in (0, 127, 129, 255, 1023, 1025, 1152)),
            (lambda: model.joint_find(store, bytes(128), bytearray()), 10),
            (lambda: model.joint_find(store, bytes(1024), bytearray()), 10)):
        expect("order of the input's refusals", call(), Refused(wanted, ()))


def forged(build_rows, p=1, sizes=(4, 4, 4, 4), build=scheme.Scheme):
    """A fresh store with C rows of hue=red, share 0, written as `build_rows` names them."""
    model, store = made(build, Cheap, p, *sizes)
    cl = model.insert_token(KEY, *HUE, p, 0, NONCE)[65:97]
    for kind, n, one, two in build_rows:
        tag = model.counter_tag(cl, n) if kind == "counter" else model.anchor_tag(cl, n)
        model.put_c(store, cl, tag, NONCE, one, two)
    return model, store


def damage():
    """13 comes under its condition and no other [01:RS6]."""
    reads = ("insert", "find", "count", "joint find")
    for rows in ([("counter", 1, 1, 1)], [("counter", 1, 0, GREATEST + 1)],
                 [("anchor", 1, GREATEST + 1, 0)], [("anchor", 1, 0, GREATEST + 1)],
                 [("anchor", 1, 3, GREATEST + 1), ("counter", 4, 0, 1)],
                 [("anchor", 1, 2 ** 64 - 1, 1)],
                 [("counter", 1, 0, 1), ("counter", 2, 1, 1)]):
        model, store = forged(rows)
        all_refuse(model, store, 13, reads)
        expect("a reading without its CL in S", every_call(model, store, 1)[4][1](), Done((0, 0)))
    # Only anchor B and counter Start+k are decrypted [01:RC6].
    for rows, count in (([("counter", 1, 7, 9), ("counter", 2, 0, 2)], 2),
                        ([("anchor", 1, 2 ** 40, 2 ** 40), ("anchor", 2, 5, 3)], 3),
                        ([("anchor", 1, 2, 3), ("counter", 1, 9, 9), ("counter", 3, 0, 4)], 4),
                        ([("anchor", 2, 2 ** 40, 1), ("counter", 2, 1, 1)], 0)):
        model, store = forged(rows)
        expect("a count", model.count(store, model.count_token(KEY, *HUE)).values[0], count)


def limits(build):
    """14 before 15 before 16 before 17 before 21; 19 before 13 [01:RS5 to RS10] [02:W4.30]."""
    def insert_one(model, store, n=1):
        token = model.insert_token(KEY, *HUE, 1, 0, NONCE)
        return model.insert(store, token, bytes(nonce_bytes(n)), bytes(16 * n))

    def use(store, name, rows=1):
        """Rows of a table, in form."""
        t = scheme.tables(store)[name]
        for i in range(rows):
            store[t.start + t.width * i] = 1

    model, store = forged([("anchor", 1, 1, GREATEST)], sizes=(1, 1, 1, 1), build=build)
    expect("14", insert_one(model, store), Refused(14, ()))
    expect("14 before 15", insert_one(model, store, 2), Refused(14, ()))
    model, store = forged([("anchor", 1, 1, GREATEST - 1)], build=build)
    expect("the greatest count", insert_one(model, store), Done((GREATEST,)))
    model, store = forged([("anchor", 1, 1, 1)], sizes=(1, 1, 1, 1), build=build)
    use(store, "S"), use(store, "R")
    expect("15 before 16", insert_one(model, store, 2), Refused(15, ()))
    expect("16 before 17", insert_one(model, store), Refused(16, ()))
    model, store = forged([("anchor", 1, 1, 1)], sizes=(1, 2, 1, 1), build=build)
    use(store, "S"), use(store, "R")
    expect("17 before 21", insert_one(model, store), Refused(17, ()))
    model, store = forged([("anchor", 1, 1, 1)], sizes=(1, 2, 1, 1), build=build)
    use(store, "R")
    expect("21", insert_one(model, store), Refused(21, ()))
    for table, number_wanted in (("M", 15), ("V", 15), ("R", 21)):
        model, store = forged([], build=build)
        use(store, table, 3)
        expect("%d in %s" % (number_wanted, table), insert_one(model, store, 2), Refused(number_wanted, ()))
        expect("room in " + table, insert_one(model, store), Done((1,)))
    model, store = forged([("counter", 1, 1, 1)], build=build)
    model.put(store, "S", b"\1" + model.insert_token(KEY, *HUE, 1, 0, NONCE)[97:141])
    token = model.compact_token(KEY)
    expect("19 before 13", model.compact(store, token, b""), Refused(19, ()))
    expect("13", model.compact(store, token, NONCE), Refused(13, (0, 0)))


def compactions():
    """13 in compaction keeps what was treated [01:RS13]; k = 0 writes nothing [01:OP11]."""
    for damaged in (0, 1):
        model, store = made(scheme.Scheme, Cheap, 1, 4, 4, 4, 4)
        for call in (insert(SIZE, 0, "A"), insert(SIZE, 0, "B"), insert(HUE, 0, "C")):
            model.call(store, call)
        c, s = scheme.tables(store)["C"], scheme.tables(store)["S"]
        # S is in byte order, and so the two CL are [02:W2.4]; SIZE's two rows there are equal.
        order = list(dict.fromkeys(model.labels_of_s(store, model.compact_token(KEY))))
        counters = {model.insert_token(KEY, *field, 1, 0, NONCE)[65:97]: k for field, k in ((SIZE, 2), (HUE, 1))}
        expect("equal rows of S", len({scheme.row(store, s, i) for i in (0, 1, 2)}), 2)
        expect("the two CL", sorted(order), sorted(counters))
        cl = order[damaged]
        at = scheme.lookup(store, c, model.counter_tag(cl, counters[cl]))
        store[c.start + at * c.width + 52] ^= 1  # its first number
        # A treated CL has its anchor and no counter; what is left stands in byte order.
        left = [r for r in scheme.used_rows(store, s) if model.E(model.compact_token(KEY), r[1:13], r[13:45]) in order[damaged:]]
        kept = [r for r in scheme.used_rows(store, c)
                if damaged == 0 or r[1:33] in [model.counter_tag(cl, n) for n in (1, 2)]]
        if damaged:
            k = counters[order[0]]
            kept.append(model.c_row(order[0], model.anchor_tag(order[0], 1), b"1" * 12, k, k))
        expect("13", model.call(store, Compact(KEY, b"1" * 12 + b"2" * 24)),
               (Refused(13, (damaged, counters[order[0]] if damaged else 0)), None))
        expect("C after it", scheme.used_rows(store, c), sorted(kept))
        expect("S after it", scheme.used_rows(store, s), left)
        expect("in form after it", form.in_form(store), True)

    model, store = forged([])
    model.put(store, "S", b"\1" + model.insert_token(KEY, *HUE, 1, 0, NONCE)[97:141])
    model.call(store, insert(SIZE, 0, "A"))
    nonces = b"1" * 12 + b"2" * 12
    expect("k = 0", model.call(store, Compact(KEY, nonces)), (Done((1, 1)), None))
    expect("the next nonce is the next unused one", scheme.row(store, c, 0)[33:45], b"1" * 12)
    expect("S", scheme.used(store, s), [])

    # A position above the greatest number may be written; the next reading is 13.
    model, store = forged([("anchor", 1, GREATEST, 5), ("counter", GREATEST + 1, 0, 6)])
    model.put(store, "S", b"\1" + model.insert_token(KEY, *HUE, 1, 0, NONCE)[97:141])
    expect("a position", model.call(store, Compact(KEY, NONCE)), (Done((1, 1)), None))
    expect("after it", model.call(store, Count(KEY, *HUE)), (Refused(13, ()), None))


def rows():
    """Lookup, freeing and free rows' bytes [01:ST5], [01:ST13], [01:ST14]."""
    model, store = made(scheme.Scheme, Cheap, 0, 4, 4, 4, 4)
    fresh = bytes(store)
    for i in range(scheme.HEADER, len(store)):
        store[i] = 7
    for t in scheme.tables(store).values():
        for i in range(t.rows):
            store[t.start + t.width * i] = 0
    all_refuse(model, store, 20, IN_FORM)
    expect("free rows with any bytes", (model.order(store), bytes(store)), (Done((0,)), fresh))
    model.call(store, insert(HUE, 0, "AB", p=0))
    m, v = scheme.tables(store)["M"], scheme.tables(store)["V"]
    # A third M row repeats A's tag and a third V row names A with B's tag.
    a, b = (next(r for r in scheme.used_rows(store, m) if r[1:33] == next(x for x in scheme.used_rows(store, v)
            if x[1:17] == id_of(letter))[17:]) for letter in "AB")
    for other, found in ((a[:60] + bytes([a[60] ^ 1]), None), (a, id_of("A"))):
        trial = bytearray(store)
        model.put(trial, "M", other)
        model.put(trial, "V", b"\1" + id_of("A") + b[1:33])
        first = min(a, other)
        if found is None:
            me = model.F(model.entry_key(KEY, *HUE), number(0))
            found = model.E(me, first[33:45], first[45:])
        expect("the lowest row with the tag", model.call(trial, Find(KEY, *HUE, bytes(64)))[1][:32], found + id_of("B"))
        expect("erase counts V rows", model.erase(trial, id_of("A")), Done((2,)))
        expect("M rows freed", scheme.used(trial, m), [])
        expect("V rows left, moved up", scheme.used_rows(trial, v), [b"\1" + id_of("B") + b[1:33]])
        expect("freed rows are zero", bytes(trial[m.start:v.start]), bytes(4 * 61))
        expect("no V row", model.erase(trial, id_of("A")), Done((0,)))


# All but an order, which takes a store in any form.
IN_FORM = ("insert", "erase", "find", "count", "compact", "test", "joint find", "check")


def forms():
    """What is in form and what is not [02:W2.1 W2.2 W2.3 W2.11], in each table; an order cures it [02:W2.6 W2.7 W2.8].
    Rows by their bytes after the mark: a byte there, and all others; free rows are 00 or what is left over."""
    width = {"M": 61, "V": 49, "C": 61, "S": 45, "R": 61}

    def used_row(w, at, byte, rest=5):
        content = bytearray([1] + [rest] * (w - 1))
        content[at] = byte
        return bytes(content)

    for name, w in width.items():
        zero, one = bytes(w), used_row(w, 1, 5)
        for at in (1, 2, 7, 8, 9, 16, 32, 33, w - 2, w - 1):
            for low, high in ((0x7F, 0x80), (0, 1), (0xFE, 0xFF), (0, 0xFF), (4, 6)):
                small, great = used_row(w, at, low), used_row(w, at, high)
                hold(name, [small, great, zero, zero], True)
                hold(name, [great, small, zero, zero], False)
                hold(name, [small, small, great, great], True)
                hold(name, [small, great, great, small], False)
            for byte in (1, 0x80, 0xFF):
                left = bytearray(w)
                left[at] = byte
                for i in range(4):
                    rows = [one] * i + [zero] * (4 - i)
                    rows[3] = bytes(left)
                    hold(name, rows, False)
                    rows[3], rows[i] = zero, bytes(left)
                    hold(name, rows, False)
        hold(name, [zero] * 4, True)
        for i in range(5):
            hold(name, [one] * i + [zero] * (4 - i), True)
            if i < 3:
                hold(name, [one] * i + [zero, one] + [zero] * (2 - i), False)
        hold(name, [zero, zero, zero, one], False)
        hold(name, [one, zero, zero, one], False)


def hold(name, table, good):
    """A store with these rows in one table: in form or refused by 20, which stands after 11 and before 12, 19 and 13."""
    model, store = made(scheme.Scheme, Cheap, 1, 4, 4, 4, 4)
    t = scheme.tables(store)[name]
    fresh, rows = bytes(store), [r for r in table if r[0] == 1]
    store[t.start:t.start + 4 * t.width] = b"".join(table)
    expect("form of %s" % [r.hex() for r in table], form.in_form(store), good)
    expect("the model's form", model.in_form(store, t), good)
    if not good:
        all_refuse(model, store, 20, IN_FORM)
        wrong, few = model.insert_token(KEY, *HUE, 0, 0, NONCE), model.compact_token(KEY)
        expect("20 before 12", model.insert(store, wrong, bytes(36), id_of("A")), Refused(20, ()))
        expect("20 before 19", model.compact(store, few, b""), Refused(20, ()))
        for other in scheme.tables(store).values():
            marked = bytearray(store)
            marked[other.start + 3 * other.width] = 2
            all_refuse(model, marked, 11)
    before = bytes(store)
    expect("order", model.order(store), Done((len(rows),)))
    expect("after it", bytes(store), fresh[:t.start] + b"".join(sorted(rows)) + bytes(t.width * (4 - len(rows)))
           + fresh[t.start + 4 * t.width:])
    expect("an order of what is in form", not good or bytes(store) == before, True)


def shown_tag(first, message):
    return (bytes([first]) + message).ljust(31, b"\0") + b"\x80"


class Shown:
    """A suite in which tags show what they are of, so that rows can be counted by hand. Share u's tags begin with 16 (u + 1):
    all counters of a share come before its anchors, each by its number. E changes nothing."""

    name = "shown"

    @staticmethod
    def F(key, message):
        if len(message) == 9:
            return shown_tag(key[0], message)
        return bytes([16 * (message[7] + 1) if key == TOKEN else key[0]]) + bytes(31)

    @staticmethod
    def E(key, nonce, text):
        return text


class Blind(Shown):
    """Every tag is the same: one row is every counter and every anchor."""

    @staticmethod
    def F(key, message):
        return b"U" * 32


TOKEN = b"T" * 32
LOW, HIGH = b"\1" + bytes(60), b"\1" + b"\xff" * 60
EQUAL = b"\1" + b"U" * 32 + bytes(28)


def counter(position, count, u=0, first=0, rest=0):
    """A counter's row."""
    tag = shown_tag(16 * (u + 1), b"\1" + number(position))
    return b"\1" + tag + bytes([rest]) * 12 + number(first) + number(count)


def anchor(n, start, count, u=0):
    """An anchor's row."""
    return b"\1" + shown_tag(16 * (u + 1), b"\2" + number(n)) + bytes(12) + number(start) + number(count)


def beside(r, last):
    """A row whose tag has another last byte."""
    return r[:32] + bytes([last]) + r[33:]


# p, c, the used rows of C, the count, and the rows looked at, by lookup: (anchors, counters) for each share.
LOOKED = [
    # No used row [02:W3.2 W3.3].
    (0, 4, [], 0, [([0], [0])]),
    (2, 1, [], 0, [([0], [0])] * 3),
    # Below all rows: the one that follows is looked at, not those behind it.
    (0, 4, [HIGH], 0, [([1], [1])]),
    (0, 4, [HIGH] * 2, 0, [([1], [1])]),
    (0, 4, [HIGH] * 4, 0, [([1], [1])]),
    # Above all rows: none follows, in a table with free rows and in a full one.
    (0, 4, [LOW], 0, [([1], [1])]),
    (0, 4, [LOW] * 3, 0, [([3], [3])]),
    (0, 4, [LOW] * 4, 0, [([4], [4])]),
    (0, 64, [LOW] * 4, 0, [([4], [4])]),
    # Between.
    (0, 4, [LOW, LOW, HIGH], 0, [([3], [3])]),
    (1, 4, [LOW, LOW, HIGH, HIGH], 0, [([3], [3])] * 2),
    # At the first row, the last, the one and only; the lookup that finds nothing is told too [02:W3.4 W3.5].
    (0, 4, [counter(1, 5)], 5, [([1], [1, 1])]),
    (0, 4, [counter(1, 5), HIGH], 5, [([2], [1, 2])]),
    (0, 4, [LOW, LOW, counter(1, 5)], 5, [([3], [3, 3])]),
    (0, 4, [LOW, LOW, LOW, counter(1, 5)], 5, [([4], [4, 4])]),
    (0, 4, [LOW, counter(1, 5), HIGH], 5, [([3], [2, 3])]),
    (0, 4, [counter(1, 5), anchor(1, 0, 9)], 5, [([2, 2], [1, 2])]),
    # A number that is missing ends it: counter 2 and anchor 2 are not looked for.
    (0, 4, [counter(2, 5)], 0, [([1], [1])]),
    (0, 4, [counter(2, 5), anchor(2, 0, 7)], 0, [([2], [1])]),
    # A tag that differs in its last byte; what stands after the tag decides nothing.
    (0, 4, [beside(counter(1, 5), 0x81)], 0, [([1], [1])]),
    (0, 4, [beside(counter(1, 5), 0x7F), HIGH], 0, [([2], [2])]),
    (0, 4, [counter(1, 5), beside(counter(1, 5), 0x81)], 5, [([2], [1, 2])]),
    (0, 4, [beside(counter(1, 5), 0x7F), counter(1, 5), beside(counter(1, 5), 0x81)], 5, [([3], [2, 3])]),
    (0, 4, [counter(1, 5, rest=255)], 5, [([1], [1, 1])]),
    # Several held, and the next number; c of a kind held, and no lookup after them [02:W3.7].
    (0, 4, [counter(1, 5), counter(2, 6), counter(3, 7)], 7, [([3], [1, 2, 3, 3])]),
    (0, 3, [counter(1, 5), counter(2, 6), counter(3, 7)], 7, [([3], [1, 2, 3])]),
    (0, 1, [counter(1, 5)], 5, [([1], [1])]),
    (0, 4, [anchor(1, 9, 9), anchor(2, 9, 9), anchor(3, 5, 7)], 7, [([1, 2, 3, 3], [1])]),
    (0, 3, [anchor(1, 9, 9), anchor(2, 9, 9), anchor(3, 5, 7)], 7, [([1, 2, 3], [1])]),
    (0, 1, [anchor(1, 5, 7)], 7, [([1], [1])]),
    # Counters from Start + 1 on, whatever stands at lower positions.
    (0, 4, [counter(6, 9), anchor(1, 5, 7)], 9, [([2, 2], [1, 2])]),
    (0, 4, [counter(1, 8), counter(6, 9), counter(7, 10), anchor(1, 5, 7)], 10, [([4, 4], [2, 3, 4])]),
    (0, 4, [counter(1, 8), counter(2, 9), anchor(1, 5, 7)], 7, [([3, 3], [3])]),
    # A tag twice: the first of them ends its own lookup, and both are passed by one that goes on.
    (0, 2, [counter(1, 7), counter(1, 9)], 7, [([2], [1, 2])]),
    (0, 4, [counter(1, 7), counter(1, 7), counter(2, 8)], 8, [([3], [1, 3, 3])]),
    (0, 4, [anchor(1, 5, 7), anchor(1, 5, 7), anchor(1, 5, 7)], 7, [([1, 3], [1])]),
    # Several shares, each through the whole table [02:W3.8].
    (1, 4, [counter(1, 5), counter(1, 6, u=1)], 11, [([2], [1, 2]), ([2], [2, 2])]),
    (1, 2, [counter(1, 5), counter(1, 6, u=1)], 11, [([2], [1, 2]), ([2], [2, 2])]),
    (1, 2, [counter(1, 5), counter(2, 6)], 6, [([2], [1, 2]), ([2], [2])]),
    (2, 5, [counter(1, 5), anchor(1, 1, 5, u=1), counter(1, 2, u=2), counter(2, 3, u=2)], 13,
     [([2], [1, 2]), ([2, 3], [2]), ([4], [3, 4, 4])]),
]
# The same in a suite where every tag is the same: c of either kind are held, and every lookup looks at all used rows or
# ends at the first; where the row is the last, the bound is reached [02:W3.11].
BLIND = [
    (0, 1, [EQUAL], 0, [([1], [1])]),
    (1, 3, [EQUAL], 0, [([1] * 3, [1] * 3)] * 2),
    (1, 3, [LOW, EQUAL], 0, [([2] * 3, [2] * 3)] * 2),
    (1, 3, [LOW, LOW, EQUAL], 0, [([3] * 3, [3] * 3)] * 2),
    (1, 3, [EQUAL, EQUAL, HIGH], 0, [([1] * 3, [1] * 3)] * 2),
    (0, 3, [LOW, HIGH], 0, [([2], [2])]),
]
# What refuses a count; a refusal carries no rows.
REFUSED = [
    (13, 0, 4, [counter(1, 5, first=1)]), (13, 0, 4, [counter(1, GREATEST + 1)]), (13, 0, 4, [anchor(1, GREATEST + 1, 0)]),
    (13, 0, 4, [anchor(1, 0, GREATEST + 1), HIGH]), (13, 1, 4, [counter(1, 5), counter(1, 6, u=1, first=1)]),
    (13, 0, 1, [counter(1, 5, first=1)]),
    (20, 0, 4, [HIGH, LOW]), (20, 0, 4, [counter(2, 6), counter(1, 5)]), (11, 0, 4, [b"\2" + LOW[1:]]),
]


def with_c(build, suite, p, size, rows):
    model, store = made(build, suite, p, 1, size, 1, 1)
    at = scheme.tables(store)["C"].start
    store[at:at + 61 * len(rows)] = b"".join(rows)
    return model, store


def looked(build):
    """The rows that a count looks at, each number written by hand, and the bound [02:W3.11]; the count is that of the
    full reading [02:W3.12]."""
    reached = 0
    for suite, cases in ((Shown, LOOKED), (Blind, BLIND)):
        for p, size, rows, count, by_share in cases:
            model, store = with_c(build, suite, p, size, rows)
            expect("what was written", len(by_share), p + 1)
            wanted = sum(n for anchors, counters in by_share for n in anchors + counters)
            expect("rows of a count: %r" % ((p, size, [r.hex() for r in rows]),), model.count(store, TOKEN), Done((count, wanted)))
            most = 2 * size * (p + 1) * len(rows)
            expect("the bound", wanted <= most, True)
            reached += 0 < wanted == most
    for refusal, p, size, rows in REFUSED:
        model, store = with_c(build, Shown, p, size, rows)
        expect("rows of a count: refused", model.count(store, TOKEN), Refused(refusal, ()))
    expect("bounds reached", reached, 6)


def inserted(build):
    """The bytes of an insert token and of the rows that an insert of two ids writes, nonces all different: p, MT, ME, CL, nonce,
    E(KS, nonce, CL), RL [02:W4.4 W4.9]; M's nonces, the counter's, R's [02:W4.11 W4.12]; the S row [02:W4.10] and the R rows
    [02:W4.3 W4.13]. An insert in another share has the same RL."""
    for suite in (Cheap, Real):
        model, store = made(build, suite, 1, 2, 2, 2, 2)
        label, nonces = b"\3huered", bytes(range(60))
        rl = suite.F(suite.F(KEY, number(4)), label)
        cl = suite.F(suite.F(suite.F(KEY, number(2)), label), number(0))
        log = b"L" * 12 + suite.E(suite.F(KEY, number(3)), b"L" * 12, cl)
        token = model.insert_token(KEY, *HUE, 1, 0, b"L" * 12)
        expect("an insert token's end", (len(token), token[65:]), (173, cl + log + rl))
        expect("RL in every share", model.insert_token(KEY, *HUE, 1, 1, b"L" * 12)[141:], rl)
        expect("RL by itself", model.mark_token(KEY, *HUE), rl)
        expect("a part", model.part_token(KEY, *HUE), model.find_token(KEY, *HUE) + rl)
        expect("an insert", model.insert(store, token, nonces, id_of("B") + id_of("A")), Done((2,)))
        rows = {name: scheme.used_rows(store, t) for name, t in scheme.tables(store).items()}
        expect("nonces of M", sorted(r[33:45] for r in rows["M"]), [nonces[:12], nonces[12:24]])
        expect("nonce of C", rows["C"][0][33:45], nonces[24:36])
        expect("the S row", rows["S"], [b"\1" + log])
        expect("the R rows", rows["R"], [b"\1" + id_of(x) + n + suite.F(rl, n + id_of(x))
                                         for x, n in (("A", nonces[48:]), ("B", nonces[36:48]))])


# Two parts of a joint find as bytes: MT, ME, CL and RL of 32 bytes each.
ONE, TWO = bytes(range(128)), bytes(range(128, 256))


def entry_row(suite, part, address, letter, u=0):
    """A row of M of a part's share."""
    mt, me = (suite.F(part[at:at + 32], number(u)) for at in (0, 32))
    return b"\1" + suite.F(mt, number(address)) + NONCE + suite.E(me, NONCE, id_of(letter))


def counter_row(suite, part, count, first=0, u=0):
    """A row of C of a part's share: its counter 1."""
    cl = suite.F(part[64:96], number(u))
    tag = suite.F(suite.F(cl, number(1)), b"\1" + number(1))
    return b"\1" + tag + NONCE + suite.E(suite.F(cl, number(2)), NONCE, number(first) + number(count))


def label_row(suite, part, letter, nonce=b"n" * 12, mark=None):
    """A row of R of an id, with a part's R mark or another."""
    return b"\1" + id_of(letter) + nonce + (mark or suite.F(part[96:], nonce + id_of(letter)))


def with_rows(build, suite, tables, p=0):
    """A store with these rows, in form; each table has room for one more."""
    model, store = made(build, suite, p, *(len(tables.get(name, [])) + 1 for name in "MCSR"))
    for name, rows in tables.items():
        t = scheme.tables(store)[name]
        store[t.start:t.start + t.width * len(rows)] = b"".join(sorted(rows))
    return model, store


def tested(build):
    """Yes exactly when an R row of that id carries RL's R mark, over its own nonce and then the id [02:W4.17]."""
    for suite in (Cheap, Real):
        rl, nonce, a = ONE[96:], b"n" * 12, id_of("A")
        one, two = label_row(suite, ONE, "A"), label_row(suite, TWO, "A")
        for rows, letter, says in (
                ([one], "A", 1), ([one], "B", 0), ([two], "A", 0), ([], "A", 0), ([one, two], "A", 1),
                ([label_row(suite, TWO, "A", bytes([i]) * 12) for i in range(5)] + [label_row(suite, ONE, "A", b"m" * 12)], "A", 1),
                ([one, one, label_row(suite, ONE, "C")], "A", 1), ([label_row(suite, ONE, x) for x in "AC"], "B", 0),
                ([label_row(suite, ONE, x) for x in "AC"], "C", 1), ([two, label_row(suite, ONE, "B")], "A", 0),
                *(([label_row(suite, ONE, "A", mark=suite.F(rl, message))], "A", 0) for message in (a, a + nonce, b"o" * 12 + a, nonce)),
                *(([label_row(suite, ONE, "B", mark=suite.F(rl, nonce + a))], letter, 0) for letter in "AB"),
                ([label_row(suite, ONE, "A", mark=suite.F(rl, nonce + a)[:31] + b"?")], "A", 0)):
            model, store = with_rows(build, suite, {"R": rows})
            before = bytes(store)
            expect("a test: of %s by %s" % (letter, [r.hex() for r in rows]), model.test(store, id_of(letter), rl), Done((says,)))
            expect("a test leaves the store", bytes(store), before)


def joined(build):
    """Joint finds on stores that no list of calls makes: rows of R that are missing, and damage. Parts by their bytes."""
    for suite in (Cheap, Real):
        entries = [entry_row(suite, part, 1 + at, letter)
                   for part, letters in ((ONE, "AB"), (TWO, "BA")) for at, letter in enumerate(letters)]
        all_four = [label_row(suite, part, letter) for part in (ONE, TWO) for letter in "AB"]
        only_a = [label_row(suite, ONE, "A")]

        def counts(one, two, first=0):
            return [counter_row(suite, ONE, one), counter_row(suite, TWO, two, first)]

        for given, c, r, room, wanted in (
                # The find of the part with the least count [02:W4.19], the earlier on a tie [02:W4.20].
                ((ONE, TWO), counts(3, 2), all_four, 40, "BA"), ((ONE, TWO), counts(2, 3), all_four, 40, "AB"),
                ((ONE, TWO), counts(2, 2), all_four, 40, "AB"), ((TWO, ONE), counts(2, 2), all_four, 40, "BA"),
                ((ONE, TWO, ONE), counts(3, 2), all_four, 40, "BA"), ((ONE, TWO, ONE), counts(2, 2), all_four, 40, "AB"),
                ((ONE, ONE, TWO), counts(3, 2), all_four, 40, "BA"), ((ONE, TWO, ONE, TWO), counts(2, 2), all_four, 40, "AB"),
                # Every other part is tested, and the chosen one is not, but where it stands again [02:W4.21].
                ((TWO, ONE), counts(2, 2), only_a, 40, "A"), ((ONE, TWO), counts(2, 2), only_a, 40, ""),
                ((TWO,), counts(2, 2), only_a, 40, "BA"), ((TWO,), counts(2, 2), [], 40, "BA"), ((TWO, TWO), counts(2, 2), only_a, 40, ""),
                ((ONE, ONE), counts(2, 2), only_a, 40, "A"), ((TWO,) + (ONE,) * 7, counts(2, 2), only_a, 40, "A"),
                ((TWO,) + (ONE,) * 6 + (TWO,), counts(2, 2), only_a, 40, ""),
                # 18 by the ids kept [02:W4.23].
                ((ONE, TWO), counts(2, 2), all_four, 32, "AB"), ((ONE, TWO), counts(2, 2), all_four, 31, Refused(18, (2,))),
                ((TWO, ONE), counts(2, 2), only_a, 16, "A"), ((TWO, ONE), counts(2, 2), only_a, 15, Refused(18, (1,))),
                ((ONE, TWO), counts(2, 2), only_a, 0, ""),
                # Damage in any part [02:W4.22].
                ((ONE,), counts(1, 2, 1), only_a, 40, "A"), ((TWO,), counts(1, 2, 1), only_a, 40, Refused(13, ())),
                ((ONE, TWO), counts(1, 2, 1), only_a, 40, Refused(13, ())), ((TWO, ONE), counts(1, 2, 1), only_a, 0, Refused(13, ())),
                ((ONE,) * 7 + (TWO,), counts(1, 2, 1), only_a, 40, Refused(13, ()))):
            model, store = with_rows(build, suite, {"M": entries, "C": c, "R": r})
            before, output, lent = bytes(store), bytearray(range(room)), bytes(range(room))
            answer = model.joint_find(store, b"".join(given), output)
            ids = b"" if isinstance(wanted, Refused) else b"".join(id_of(x) for x in wanted)
            expect("a joint find of %d parts" % len(given), answer, wanted if isinstance(wanted, Refused) else Done((len(wanted),)))
            expect("its output", bytes(output), ids + lent[len(ids):])
            expect("a joint find leaves the store", bytes(store), before)
        # Damage in a later share of the last part, where the least count is another part's.
        model, store = with_rows(build, suite, {"C": [counter_row(suite, TWO, 1, first=1, u=1)]}, p=1)
        expect("damage in a share", model.joint_find(store, ONE + TWO, bytearray()), Refused(13, ()))
        # An erased entry is counted: of part one an entry is gone, and part two has 2 of 2.
        model, store = with_rows(build, suite, {"M": entries[1:], "C": counts(2, 3), "R": all_four})
        output = bytearray(32)
        expect("by the count", (model.joint_find(store, ONE + TWO, output), bytes(output)), (Done((1,)), id_of("B") + bytes(16)))


def unmarked(build):
    """An erase frees every R row of the id, whatever V has of it, and its answer is of V [02:W4.14]."""
    for suite in (Cheap, Real):
        rows = [label_row(suite, ONE, "A"), label_row(suite, TWO, "A"), label_row(suite, ONE, "B")]
        reverse = b"\1" + id_of("C") + bytes(32)
        for letter, answer, left in (("A", 0, rows[2:]), ("B", 0, rows[:2]), ("C", 1, rows), ("D", 0, rows)):
            model, store = with_rows(build, suite, {"V": [], "R": rows})
            model.put(store, "V", reverse)
            expect("an erase of %s" % letter, model.erase(store, id_of(letter)), Done((answer,)))
            expect("R after it", scheme.used_rows(store, scheme.tables(store)["R"]), sorted(left))
            expect("in form after it", form.in_form(store), True)


def checked(build):
    """The seven numbers of stores written by hand, each written by hand; those of a store in which an insert was repeated at an
    address in use; every refusal beside what is accepted; nothing changes [check:1 check:2 check:3 check:4 check:5 check:6 check:7
    check:8]."""
    for suite in (Cheap, Real):
        model, right = build(suite), scheme.Scheme(suite)
        joined, call = faults.address_in_use(right)
        repeated = bytearray(joined)
        expect("an insert at an address in use", right.call(repeated, call)[0], Done((2,)))
        for title, store, wanted in (*faults.by_hand(), ("an older C and S", joined, faults.NONE),
                                     ("an address in use", bytes(repeated), (1, 0, 0, 0, 0, 0, 0))):
            lent = bytearray(store)
            expect("a check: " + title, model.check(lent), Done(wanted))
            expect("a check leaves the store", bytes(lent), store)
            expect("the numbers by counting", faults.by_counting(store), wanted)
        for store, wanted in faults.refusals(bytes(repeated)):
            lent = bytearray(store)
            expect("a check refused", model.check(lent), Refused(wanted, ()) if wanted else Done((1, 0, 0, 0, 0, 0, 0)))
            expect("a check leaves the store", bytes(lent), store)


def shared(build, build_ledger):
    """The examples that a wrong version of store or ledger is held against."""
    labels(build)
    run_calls(build, build_ledger, (1, 4, 4, 4, 4), worked())
    run_calls(build, build_ledger, (1, 9, 6, 6, 9), repeated())
    run_calls(build, build_ledger, (1, 6, 4, 4, 6), ordered())
    run_calls(build, build_ledger, (1, 8, 6, 6, 7), jointly())
    run_calls(build, build_ledger, (0, 8, 4, 4, 8), least())
    for example in (making, headers, input_order, limits, inserted, tested, joined, unmarked, looked, checked):
        example(build)


def all_examples():
    cipher()
    shared(scheme.Scheme, Ledger)
    for example in (damage, compactions, rows, forms):
        example()
