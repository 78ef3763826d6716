#!/usr/bin/env python3
"""The command-line tool from outside: the built program target/bin/mazhkuri on files.

  tool.py                 every test, 10 to 80 seconds
  tool.py --kills N       with as many interrupted runs (default 1000; 300 where they take more than a minute)
  tool.py --only NAME     one test, by the name that its last line has

Tests: the worked list of document 01 ('A day in the ledger'), ids with several entries, the rows a count looks at, finds by several fields, rows in byte order, faults that a check counts, bad words, office and server
apart, files that are no store, stores of version 1, refusals from the state, the largest store on a small stack, a disk that is full, a folder that cannot
be written, no randomness, links, names that are no text, owner and mode, what a lock says, several tools at once, each call of the
system failing or never reached, every state that a power cut may leave, and runs interrupted by kill -9. What
the tool leaves in a store is read back by the model (tests/model) too, which shares no code with it. A test
that cannot be run here is left out with a line that says so; under the gate that is a failure.
"""
import argparse
import concurrent.futures
import hashlib
import itertools
import os
import pathlib
import random
import resource
import shutil
import signal
import stat
import subprocess
import sys
import tempfile
import time

HERE = pathlib.Path(__file__).resolve().parent
sys.path.insert(0, str(HERE / "model"))
import disk  # noqa: E402
import examples  # noqa: E402
import form  # noqa: E402
import placing  # noqa: E402
import scheme  # noqa: E402
import version1  # noqa: E402
from gate import left_out  # noqa: E402
from primitives import Real  # noqa: E402

BUILT = HERE.parent / "target" / "bin" / "mazhkuri"
NOBODY = 65534
# the first word of a command that is not done: by a rule, by its words, by the system
UNDONE = ("refused", "misused", "failed")
checks = 0
shim = None  # tests/calls.c, compiled


def expect(holds, what):
    global checks
    checks += 1
    if not holds:
        sys.exit(f"tests/tool.py: FAILED: {what}")


def ident(n):
    """An id that depends on n in every digit."""
    return hashlib.sha256(n.to_bytes(8, "big")).hexdigest()[:32]


class Bench:
    """A folder with the program, a store and a key."""

    def __init__(self, folder, sizes):
        self.folder = pathlib.Path(folder)
        self.program = self.folder / "mazhkuri"
        self.store = self.folder / "store"
        self.key = self.folder / "key"
        shutil.copy(BUILT, self.program)
        os.chmod(self.folder, 0o755)
        if sizes:
            expect(self.run("new", "store", *sizes) == ("", ""), "a new store answers nothing")
            expect(self.run("key", "key") == ("", ""), "a new key answers nothing")

    def start(self, *words, **more):
        more = {"cwd": self.folder, **more}
        return subprocess.Popen([self.program, *map(str, words)], stdin=subprocess.DEVNULL, stdout=subprocess.PIPE,
                                stderr=subprocess.PIPE, text=True, **more)

    def run(self, *words, **more):
        return self.start(*words, **more).communicate(timeout=60)

    def watched(self, words, at=0, fail=False, **more):
        """A run with tests/calls.c before its calls of the system, ended before call `at`, or with that call failing: what it
        printed and said, its exit status, and its calls."""
        log = shim.parent / "log"
        log.unlink(missing_ok=True)
        run = self.start(*words, env={"LD_PRELOAD": str(shim), "LOG": str(log), "AT": str(at), **({"FAIL": "1"} if fail else {})}, **more)
        out, err = run.communicate(timeout=60)
        calls = disk.calls_in(log) if log.exists() else []
        expect(calls and calls[0].name == "loaded", f"{words}: tests/calls.c was not loaded")
        return out, err, run.returncode, calls[1:]

    def files(self):
        """What is in the folder beside the program."""
        found = {str(p.relative_to(self.folder)): p for p in self.folder.rglob("*") if p != self.program and p.is_file()}
        return {name: path.read_bytes() for name, path in found.items()}

    def lay(self, files):
        """Makes these the files of the folder."""
        for name in self.files():
            (self.folder / name).unlink()
        for name, content in files.items():
            (self.folder / name).write_bytes(content)

    def answer(self, *words):
        """The answer of a run that says nothing else."""
        out, err = self.run(*words)
        expect(err == "", f"{words}: {err}")
        return out

    def refused(self, words, first, part, **more):
        """A run that is refused, with a message, and leaves the store as it was."""
        before = self.store.read_bytes() if self.store.exists() else None
        out, err = self.run(*words, **more)
        expect(out == first + "\n" and part in err, f"{words}: {out!r} {err!r}")
        after = self.store.read_bytes() if self.store.exists() else None
        expect(before == after, f"{words}: the store changed")
        left = [p.name for p in self.folder.iterdir() if p.suffix in (".new", ".lock") or len(p.suffix) == 7]
        expect(not left or "lock" in part, f"{words}: left {left}")

    def found(self, field="hue", value="red"):
        return self.answer("find", "store", "key", field, value).split()

    def found_by(self, *fields):
        """What a find by several fields prints, which is what the model finds in the bytes that the tool left."""
        ids = self.answer("find", "store", "key", *(word for field in fields for word in field)).split()
        model, key = scheme.Scheme(Real), self.key.read_bytes()
        parts = b"".join(model.part_token(key, *(word.encode() for word in field)) for field in fields)
        output = bytearray(16 * 4096)
        n, = model.joint_find(self.store.read_bytes(), parts, output).values
        expect(ids == [output[16 * i:16 * i + 16].hex() for i in range(n)], f"{fields}: the model finds something else than {ids}")
        return ids

    def entries(self):
        """The ids that the store's file has entries of, as often as it has them: the rows of V."""
        store = self.store.read_bytes()
        rows = scheme.tables(store)["V"]
        return [scheme.row(store, rows, i)[1:17].hex() for i in scheme.used(store, rows)]

    def in_form(self):
        """Whether the store's rows stand in byte order, by the sentences of document 02."""
        return form.in_form(self.store.read_bytes())

    def model_finds(self, field="hue", value="red"):
        """What the model finds in the bytes that the tool left."""
        model, store = scheme.Scheme(Real), self.store.read_bytes()
        output = bytearray(16 * 4096)
        n, = model.find(store, model.find_token(self.key.read_bytes(), field.encode(), value.encode()), output).values
        return [output[16 * i:16 * i + 16].hex() for i in range(n)]


def worked_list(b):
    """G1 to G8 [01:DY2 DY3 DY4 DY5 DY6 DY7 DY8 DY9]."""
    A, B, C, D, E, F, G = (ident(n) for n in range(7))

    def insert(u, *ids):
        return b.answer("insert", "store", "key", "hue", "red", u, *ids)

    def holds(*ids):
        expect(b.found() == list(ids), f"find gives {b.found()}")

    expect(stat.S_IMODE(b.key.stat().st_mode) == 0o600, "the key is for its owner alone")
    expect(insert(0, A, B) == "2\n" and insert(1, C.upper()) == "1\n", "G1 inserts")
    holds(A, B, C)
    expect(b.answer("count", "store", "key", "hue", "red") == "3\n", "G1 count")
    expect(b.answer("erase", "store", B) == "1\n", "G2 erase")
    holds(A, C)
    expect(b.answer("count", "store", "key", "hue", "red") == "3\n", "G2 count")
    expect(b.answer("compact", "store", "key") == "2 2\n", "G3 compaction")
    holds(A, C)
    expect(insert(0, D) == "3\n", "G4 insert")
    holds(A, D, C)
    b.refused(["insert", "store", "key", "hue", "red", 0, E, F], "refused 15", "15: the store has room for 1 more entry, 2 were given")
    expect(b.answer("erase", "store", A) == "1\n" and insert(0, E, F) == "5\n", "G6")
    holds(D, E, F, C)
    expect(b.answer("erase", "store", C) == "1\n", "G7 erase")
    small = ["insert", "store", "key", "size", "L", 0, G]
    b.refused(small, "refused 16", "16: no counter row is free: compact the store")
    expect(b.answer("compact", "store", "key") == "1 2\n", "G8 compaction")
    expect(b.answer(*small) == "1\n", "G8 insert")
    expect(b.found("size", "L") == [G] and b.found("size", "M") == [], "G8 finds")
    expect(b.model_finds() == b.found() == [D, E, F], "the model finds the same")
    shown = b.answer("show", "store").splitlines()
    expect(shown[0] == "a store for shares 0 to 1" and shown[3] == "counters (C) [####################] 4 of 4 rows used, 0 free", f"show: {shown}")
    expect(shown[5:] == ["labels   (R) [####################] 4 of 4 rows used, 0 free"], f"show: {shown}")
    expect(b.answer("erase", "store", B) == "0\n", "an id that is not there")


def each_once(b):
    """Ids with several entries: a find prints each once [02:W1.1], at its first place [02:W1.2], with the key and by token; a
    count counts entries [02:W1.4], and an erase tells how many there were [02:W1.6]."""
    A, B, C, D = ident(1), ident(2), ident(3), ident(3)[:-1] + format(int(ident(3)[-1], 16) ^ 1, "x")
    token = b.answer("token", "find", "key", "hue", "red")
    (b.folder / "token").write_text(token)

    def insert(u, *ids):
        return b.answer("insert", "store", "key", "hue", "red", u, *ids)

    def holds(entries, *ids):
        for words in (["key", "hue", "red"], ["--token", token[:-1]], ["--token", "@token"]):
            out = b.answer("find", "store", *words)
            expect(out == "".join(id + "\n" for id in ids), f"{words[0]}: find prints {out.split()}, expected {ids}")
        expect(b.model_finds() == list(ids), f"the model finds {b.model_finds()}, expected {ids}")
        expect(len(b.entries()) == entries, f"{len(b.entries())} entries, expected {entries}")

    def counts(n):
        expect(b.answer("count", "store", "key", "hue", "red") == f"{n}\n", f"a count of {n} entries")

    expect(insert(0, A, B, A) == "3\n", "an id twice in an insert")
    holds(3, A, B)
    expect(insert(0, A, B, A) == "6\n", "the same insert again")
    holds(6, A, B)
    expect(insert(1, C, B, D) == "3\n" and insert(1, A, A) == "5\n", "another share")
    holds(11, A, B, C, D)
    counts(11)
    expect(b.answer("insert", "store", "key", "size", "L", 0, B, A, B) == "3\n" and b.found("size", "L") == [B, A], "another field has its own order")
    expect(b.answer("erase", "store", A) == "7\n", "an erase tells of every entry, in all shares and fields")
    holds(7, B, C, D)
    counts(11)
    expect(insert(0, A, A) == "8\n", "a new insert of the id that was erased")
    holds(9, B, A, C, D)
    expect(b.answer("compact", "store", "key") == "3 6\n", "a compaction")
    holds(9, B, A, C, D)
    counts(13)
    same = [ident(9)] * 64
    expect(insert(1, *same) == "69\n" and insert(0, *same) == "72\n", "64 entries of an id at a time")
    holds(137, B, A, ident(9), C, D)
    counts(141)
    expect(b.answer("erase", "store", ident(9)) == "128\n" and b.answer("erase", "store", ident(9)) == "0\n", "an erase of 128 entries")
    holds(9, B, A, C, D)


def several_fields(b):
    """A find by 1 to 8 fields prints the ids that are under each of them [02:W4.18 W4.21], in the order of the field with the fewest ever inserted [02:W4.19], of several such the earlier
    [02:W4.20]; erased ids count there and are not found [02:W4.14]. 21 where R has no room [02:W4.28]; `show` tells of R [02:W4.1]."""
    north, south, may, june = ("branch", "north"), ("branch", "south"), ("month", "may"), ("month", "june")
    A, B, C, D, E, F = (ident(n) for n in range(6))

    def insert(field, u, *ids):
        return b.answer("insert", "store", "key", *field, u, *ids)

    def holds(fields, *ids):
        expect(b.found_by(*fields) == list(ids), f"a find by {fields} gives {b.found_by(*fields)}, expected {ids}")

    def labels(used):
        line = b.answer("show", "store").splitlines()[5]
        expect(line.startswith("labels   (R) [") and line.endswith(f"] {used} of 12 rows used, {12 - used} free"), f"show: {line}")

    labels(0)
    expect(insert(north, 0, A, B, C) == "3\n" and insert(may, 1, C, A) == "2\n", "inserts under two fields")
    for fields in ([north, may], [may, north], [may, north, may], [north] * 3 + [may] * 5):
        holds(fields, C, A)
    holds([north], A, B, C)
    holds([north, june])
    holds([june, north])
    expect(insert(may, 0, D) == "1\n", "as many under the other")
    holds([north, may], A, C)
    holds([may, north], C, A)
    labels(6)
    expect(insert(north, 1, A, A) == "2\n", "an id again")
    holds([north, may], C, A)
    holds([north], A, B, C)
    expect(b.answer("erase", "store", C) == "2\n", "an erase")
    holds([north, may], A)
    labels(6)
    expect(b.answer("compact", "store", "key") == "4 4\n", "a compaction")
    holds([north, may], A)
    # R has 12 rows, and M 20
    expect(insert(june, 0, B, A, E, F) == "4\n", "a third field")
    b.refused(["insert", "store", "key", *south, 0, C, D, E], "refused 21", "21: the store has room for 2 more labels, 3 were given: compact does not help, erase ids or make a larger store\n")
    expect(insert(south, 0, D) == "1\n", "the last but one")
    b.refused(["insert", "store", "key", *south, 0, C, D], "refused 21", "21: the store has room for 1 more label, 2 were given")
    labels(11)
    holds([june, north], B, A)
    holds([june, north, may], A)
    holds([south, may], D)
    holds([north, may, june, south])
    expect(b.in_form(), "the rows are not in byte order")

    # how many words, and which refusals: 1 and 2 of any field, and a value may be empty
    find = ["find", "store", "key"]
    usage = "expected: mazhkuri find STORE KEYFILE FIELD VALUE [FIELD VALUE]..., or find STORE --token TOKEN: "
    for words in ([], north[:1], [*north, "month"], [*north] * 2 + ["month"], [*north] * 9, [*north] * 8 + ["month"], [*north, "--rows"]):
        b.refused(find + list(words), "misused", usage)
    expect(len(b.found_by(*[north] * 8)) == 2, "8 fields")
    for at in range(3):
        for wrong in (("", "may"), ("m" * 256, "may"), ("month", "v" * 1025)):
            fields = [north, may, june]
            fields[at] = wrong
            b.refused(find + [word for field in fields for word in field], "refused 2", "2: FIELD must be 1 to 255 bytes")
    expect(b.found_by(("f" * 255, "v" * 1024), north) == [] and b.found_by(("hue", ""), north) == [], "the longest field, and an empty value")
    (b.folder / "short").write_bytes(b"x" * 31)
    b.refused(["find", "store", "short", *north, *may], "refused 1", "1: the key file must hold 32 bytes")
    b.refused(["find", "store", "short", "", "", *may], "refused 1", "1: ")
    b.refused(["find", "store", "none", *north, *may], "failed", "cannot open none: No such file")
    b.refused(["find", "none", "key", *north, *may], "failed", "cannot open none: No such file")
    token = b.answer("token", "find", "key", *north)[:-1]
    for word in (token, token + token, token + "0" * 64):
        b.refused(["find", "store", "--token", word, *may], "misused", usage)
    b.refused(["find", "store", "--token", token + token], "refused 6", "6: this is no token")
    # of two fields either is damaged
    good, model, key = b.store.read_bytes(), scheme.Scheme(Real), b.key.read_bytes()
    damaged = bytearray(good)
    rows = scheme.tables(damaged)["C"]
    cl = model.F(model.counter_key(key, b"branch", b"south"), scheme.number(0))
    damaged[rows.start + rows.width * scheme.lookup(damaged, rows, model.counter_tag(cl, 1)) + 45] ^= 1
    b.store.write_bytes(damaged)
    for fields in ((north, south), (south, north), (north, may, june, south)):
        b.refused(find + [word for field in fields for word in field], "refused 13", "13: a counter in the file")
    holds([north, may], A)
    for name in scheme.WIDTH:
        b.store.write_bytes(out_of_form(good, name))
        b.refused(find + [*north, *may], "refused 20", "20: ")
    # without its rows of R an id is under no other field than the chosen one
    bare = bytearray(good)
    form.written(bare, scheme.tables(bare)["R"], [bytes(61)] * 12)
    b.store.write_bytes(bare)
    holds([north, may])
    holds([may], D, A)
    expect(b.answer("erase", "store", A) == "5\n", "an erase of an id that has no row of R")


def old_stores(b):
    """Stores of version 1: every command is refused by 10, with what the file is and what to do [02:W4.5 W4.6]; they are left as they were."""
    b.key.write_bytes(examples.KEY)
    for name, store in version1.stores().items():
        b.store.write_bytes(store)
        for words in (["insert", "store", "key", "hue", "red", 0, ident(1)], ["find", "store", "key", "hue", "red"], ["find", "store", "key", "hue", "red", "size", "L"],
                      ["count", "store", "key", "hue", "red"], ["erase", "store", ident(1)], ["compact", "store", "key"], ["order", "store"], ["show", "store"], ["check", "store"]):
            b.refused(words, "refused 10", "10: this is a store of version 1, which an earlier mazhkuri made: make a new one with mazhkuri new, and insert the ids again\n")


def with_rows(b):
    """`--rows` as the last word of a count, with the key and by token [02:W3.8]: the count alone on its line, then the rows looked at,
    as many as the model looks at in the bytes that the tool left."""
    model, key = scheme.Scheme(Real), b.key.read_bytes()
    token = b.answer("token", "count", "key", "hue", "red")[:-1]
    (b.folder / "token").write_text(token + "\n")
    ways = (["key", "hue", "red"], ["--token", token], ["--token", "@token"])

    def modelled(value="red"):
        count, rows = model.count(b.store.read_bytes(), model.count_token(key, b"hue", value.encode())).values
        return count, f"{count}\nrows looked at: {rows}\n"

    def counts(n):
        count, lines = modelled()
        expect(count == n, f"the model counts {count}, expected {n}")
        for words in ways:
            expect(b.answer("count", "store", *words) == f"{n}\n", f"{words[0]}: a count of {n}, its rows not asked for")
            out = b.answer("count", "store", *words, "--rows")
            expect(out == lines, f"{words[0]}: a count of {n} with its rows prints {out!r}, expected {lines!r}")

    # no row, rows of others alone, counters, anchors, both, every row of C used
    counts(0)
    expect(modelled()[1] == "0\nrows looked at: 0\n", "no row is looked at in an empty store")
    for n in range(3):
        b.answer("insert", "store", "key", "size", n, n % 2, ident(n))
    counts(0)
    for n in range(5):
        b.answer("insert", "store", "key", "hue", "red", n % 2, ident(10 + n))
        counts(n + 1)
    for n in range(3):
        b.answer("compact", "store", "key")
        counts(5 + 2 * n)
        b.answer("insert", "store", "key", "hue", "red", n % 2, ident(20 + n), ident(30 + n))
        counts(7 + 2 * n)
    while b.run("insert", "store", "key", "hue", "green", 0, ident(40))[0] != "refused 16\n":
        pass
    counts(11)

    # --rows as a value, and as a token
    b.answer("compact", "store", "key")
    b.answer("insert", "store", "key", "hue", "--rows", 0, ident(50))
    expect(b.answer("count", "store", "key", "hue", "--rows") == "1\n", "a count of the value --rows")
    expect(b.answer("count", "store", "key", "hue", "--rows", "--rows") == modelled("--rows")[1], "a count of the value --rows with its rows")
    b.refused(["count", "store", "--token", "--rows"], "refused 6", "6: ")

    # another last word, one word more, another command
    for words in ways:
        for last in (["--row"], ["--rowss"], ["--ROWS"], [" --rows"], ["rows"], [""], [ident(1)], ["--rows", "--rows"], ["--rows", ""], ["", "--rows"]):
            b.refused(["count", "store", *words, *last], "misused", "expected: mazhkuri count STORE KEYFILE FIELD VALUE [--rows], or count STORE --token TOKEN [--rows]: ")
    for words in (["find", "store", "key", "hue", "red"], ["find", "store", "--token", token], ["token", "count", "key", "hue", "red"], ["compact", "store", "key"]):
        b.refused([*words, "--rows"], "misused", f"expected: mazhkuri {words[0]} ")

    # a refusal is told as without it
    def same(words, first, part):
        b.refused([*words, "--rows"], first, part)
        expect(b.run(*words) == b.run(*words, "--rows"), f"{words}: a refusal is told in another way with --rows")

    (b.folder / "short").write_bytes(b"x" * 31)
    same(["count", "store", "short", "hue", "red"], "refused 1", "1: the key file")
    same(["count", "store", "key", "", "red"], "refused 2", "2: FIELD")
    same(["count", "store", "--token", token[2:]], "refused 6", "6: this is no token")
    same(["count", "store", "none", "hue", "red"], "failed", "cannot open none")
    damaged = bytearray(b.store.read_bytes())
    rows = scheme.tables(damaged)["C"]
    last = model.F(model.counter_key(key, b"hue", b"--rows"), scheme.number(0))
    damaged[rows.start + rows.width * scheme.lookup(damaged, rows, model.counter_tag(last, 1)) + 45] ^= 1
    b.store.write_bytes(damaged)
    same(["count", "store", "key", "hue", "--rows"], "refused 13", "13: a counter in the file")
    for content, first in ((b"", "refused 10"), (out_of_form(bytes(damaged), "C"), "refused 20")):
        b.store.write_bytes(content)
        for words in ways:
            same(["count", "store", *words], first, f"{first[8:]}: ")


def out_of_form(store, name="M"):
    """The store with the first and the last used row of a table exchanged."""
    store = bytearray(store)
    t = scheme.tables(store)[name]
    first, last = scheme.used(store, t)[0], scheme.used(store, t)[-1]
    one, two = scheme.row(store, t, first), scheme.row(store, t, last)
    scheme.set_row(store, t, first, two)
    scheme.set_row(store, t, last, one)
    expect(not form.in_form(store), f"{name}: two equal rows exchanged")
    return bytes(store)


def in_order(b):
    """Rows in byte order after every command [02:W2.1 W2.2 W2.3]; a store with rows in any place is refused by 20, with what to
    do [02:W2.11], and `order` puts it in form, keeps every row and prints how many there are [02:W2.6 W2.7 W2.8]: then every
    find and count prints what it told before [02:W2.10]."""
    r, model = random.Random(5), scheme.Scheme(Real)
    b.key.write_bytes(placing.KEY)

    def others(share=0):
        return [["insert", "store", "key", "hue", "red", share, ident(1)], ["find", "store", "key", "hue", "red"],
                ["count", "store", "key", "hue", "red"], ["erase", "store", ident(1)], ["compact", "store", "key"], ["show", "store"], ["check", "store"]]

    def mode():
        return stat.S_IMODE(b.store.stat().st_mode)

    def orders(store, rows):
        """An order of these bytes, with one more of what it left."""
        b.store.write_bytes(store)
        b.store.chmod(0o640)
        wanted = bytearray(store)
        model.order(wanted)
        for _ in range(2):
            expect(b.answer("order", "store") == f"{rows}\n", f"an order of {rows} rows")
            expect(b.store.read_bytes() == wanted and mode() == 0o640, "an order leaves other bytes or another mode")

    for turn in range(12):
        p, sizes = r.choice((0, 1, 2)), tuple(r.randint(3, 9) for _ in range(4))
        place = placing.lowest if turn % 2 else placing.random_place(r)
        store, _, before = placing.filled(Real, place, p, sizes, r.randint(6, 14), r, junk=turn % 3 == 0)
        told = placing.readings(before, store)
        expect(placing.out_of_form(store), "a store with rows in any place is in form")
        b.store.write_bytes(store)
        for words in others():
            b.refused(words, "refused 20", "20: ")
            expect("mazhkuri order STORE" in b.run(*words)[1], f"{words}: the message of 20 does not say what to do")
        token = b.answer("token", "insert", "key", "hue", "red", (p + 1) % 3, 0)[:-1]
        b.refused(["insert", "store", "--token", token, ident(1)], "refused 20", "20: ")
        orders(store, sum(len(scheme.used(store, t)) for t in scheme.tables(store).values()))
        for field in placing.FIELDS:
            name, value = (text.decode() for text in field)
            answer, output = told.pop(0)
            ids = [part.hex() for part in scheme.parts(output[:16 * answer.values[0]], 16)]
            expect(b.found(name, value) == ids, f"a find of {name}={value} after an order")
            expect(b.answer("count", "store", "key", name, value) == f"{told.pop(0)[0].values[0]}\n", f"a count of {name}={value} after an order")
        answer, output = told.pop(0)
        ids = [part.hex() for part in scheme.parts(output[:16 * answer.values[0]], 16)]
        expect(b.found_by(*(tuple(text.decode() for text in field) for field in placing.FIELDS)) == ids, "a find by all fields after an order")
    # each command leaves a store in form; in each table two rows exchanged, a gap, a byte left over
    b.store.unlink()
    b.answer("new", "store", 1, 8, 8, 8, 8)
    expect(b.answer("order", "store") == "0\n", "an order of an empty store")
    for words in (["insert", "store", "key", "hue", "red", 0, ident(1), ident(2), ident(1)], ["insert", "store", "key", "size", "L", 1, ident(3)], ["erase", "store", ident(2)],
                  ["compact", "store", "key"], ["insert", "store", "key", "hue", "red", 1, ident(4), ident(5)], ["insert", "store", "key", "hue", "red", 1, ident(1)]):
        b.answer(*words)
        expect(b.in_form(), f"{words}: the rows are not in byte order")
    good = b.store.read_bytes()
    rows = sum(len(scheme.used(good, t)) for t in scheme.tables(good).values())
    for name, t in scheme.tables(good).items():
        n = len(scheme.used(good, t))
        gap, left, last = bytearray(good), bytearray(good), bytearray(good)
        scheme.set_row(gap, t, 7, scheme.row(good, t, 0))
        scheme.set_row(gap, t, 0, bytes(t.width))
        left[t.start + t.width * n + 1] = 1
        last[t.start + t.width * 8 - 1] = 0x80
        for store in (out_of_form(good, name), gap, left, last):
            b.store.write_bytes(store)
            for words in others():
                b.refused(words, "refused 20", "20: ")
            orders(store, rows)
            expect(b.store.read_bytes() == good, f"{name}: an order leaves other bytes")
        marked = bytearray(out_of_form(good, name))
        marked[scheme.tables(good)["S"].start + 45 * 7] = 2
        b.store.write_bytes(marked)
        for words in others() + [["order", "store"]]:
            b.refused(words, "refused 11", "11: ")


# What a check prints of each kind of fault: its line, and under it what follows where there are any.
FAULTS = (("entries (M) whose tag an earlier entry has", "a find gives only the first entry of a tag, so a document may be missing from it, and an erase of one takes the others too"),
          ("counters (C) whose tag an earlier counter has", "make no insert: only the first counter of a tag is read, so a count may be wrong, and an insert may take an address in use and hide a document from finds"),
          ("reverse rows (V) whose tag no entry has", "a find does not give these entries, though an erase of their ids still counts them"),
          ("entries (M) whose tag no reverse row has", "no erase takes these entries, so a find may give a document that was erased"),
          ("reverse rows (V) whose id no label has", "a find by several fields leaves these documents out, and a test of them says no"),
          ("labels (R) whose id no reverse row has", "a test may say yes of a document that has no entry, and an erase of its id frees these labels and answers 0"),
          ("labels (R) more than reverse rows (V)", "an id has more labels than reverse rows: a find by several fields may give it under a field that it is not under, and 21 may refuse inserts early"))
SOUND = (0,) * 7


def check_lines(*numbers):
    """What a check prints that counts so many of each kind."""
    lines = []
    for (what, means), n in zip(FAULTS, numbers, strict=True):
        lines.append(f"{what}: {n}")
        lines += [f"  {means}: restore a copy in which check counts none, then make the later inserts and erases again"] * (n > 0)
    return "".join(line + "\n" for line in lines) + f"faults: {sum(numbers)}\n"


def rows_in(store):
    """The used rows of each table."""
    return {name: [scheme.row(store, t, i) for i in scheme.used(store, t)] for name, t in scheme.tables(store).items()}


def with_tables(store, **tables):
    """The store with these used rows in some of its tables, in form."""
    store = bytearray(store)
    for name, rows in tables.items():
        t = scheme.tables(store)[name]
        form.written(store, t, sorted(rows) + [bytes(t.width)] * (t.rows - len(rows)))
    expect(form.in_form(store), "the rows made by hand are not in form")
    return bytes(store)


def numbers_of(store):
    """What a check has to count, row by row."""
    rows = rows_in(store)
    M, C, tags = [r[1:33] for r in rows["M"]], [r[1:33] for r in rows["C"]], [r[17:49] for r in rows["V"]]
    V, R = [r[1:17] for r in rows["V"]], [r[1:17] for r in rows["R"]]

    def lacking(these, those):
        return sum(x not in set(those) for x in these)

    return (len(M) - len(set(M)), len(C) - len(set(C)), lacking(tags, M), lacking(M, tags), lacking(V, R), lacking(R, V), max(0, len(R) - len(V)))


class Checker:
    """A bench whose store is checked: by the program, which leaves every file as it was, and through the front, for its exit status."""

    def __init__(self, b):
        self.b = b

    def status(self, *words):
        run = subprocess.run(["sh", HERE.parent / "front" / "mazhkuri", *words], cwd=self.b.folder, capture_output=True, text=True,
                             env={**os.environ, "MAZHKURI_PROGRAM": str(self.b.program)}, timeout=60)
        expect((run.stdout, run.stderr) == self.b.run(*words), f"{words}: the front prints something else: {run}")
        return run.returncode

    def counts(self, what, *numbers):
        b, state = self.b, (self.b.files(), self.b.store.stat().st_mtime_ns, self.b.store.stat().st_ino)
        expect(numbers_of(b.store.read_bytes()) == numbers, f"{what}: the test counts {numbers_of(b.store.read_bytes())}, expected {numbers}")
        expect(b.answer("check", "store") == check_lines(*numbers), f"{what}: a check prints {b.answer('check', 'store')!r}")
        expect(self.status("check", "store") == (1 if any(numbers) else 0), f"{what}: the status of a check")
        expect((b.files(), b.store.stat().st_mtime_ns, b.store.stat().st_ino) == state, f"{what}: a check changed a file, or left one")

    def counts_of(self, what, store, *numbers):
        self.b.store.write_bytes(store)
        self.counts(what, *numbers)


def checked(b):
    """A check prints how many rows of each kind do not go together, under each kind that is there what it means, and last how many
    there are; the front makes a status of that. None are there after any list of commands. Each kind made by hand alone, several
    at once, tags and ids that differ in their last byte, the last rows of full tables; each sentence is tried, and an insert at an
    address in use is seen."""
    c, r = Checker(b), random.Random(11)
    A, B, C, X = (ident(n) for n in range(4))
    size, both = ("size", "L"), [("size", "L")] * 2
    c.counts("a fresh store", *SOUND)
    for words in (["insert", "store", "key", "hue", "red", 0, A, B, A], ["insert", "store", "key", *size, 1, B, C], ["insert", "store", "key", "hue", "red", 0, X],
                  ["erase", "store", X], ["compact", "store", "key"], ["insert", "store", "key", "hue", "red", 1, X, X], ["erase", "store", X]):
        b.answer(*words)
        c.counts(f"after {words}", *SOUND)
    good = b.store.read_bytes()
    M, V, K, R = (rows_in(good)[name] for name in "MVCR")

    def of(id, rows):
        return [row for row in rows if row[1:17].hex() == id]

    def but(rows, gone):
        return [row for row in rows if row not in gone]

    # each kind alone; then what its sentence says
    twin = M[2][:33] + r.randbytes(28)
    c.counts_of("an entry's tag twice", with_tables(good, M=M + [twin]), 1, 0, 0, 0, 0, 0, 0)
    c.counts_of("an entry's tag three times", with_tables(good, M=M + [twin, twin]), 2, 0, 0, 0, 0, 0, 0)
    c.counts_of("a counter's tag twice", with_tables(good, C=K + [K[0][:33] + r.randbytes(28)]), 0, 1, 0, 0, 0, 0, 0)
    tag = of(C, V)[0][17:49]
    bare = [row for row in M if row[1:33] != tag]
    c.counts_of("a reverse row without its entry", with_tables(good, M=bare), 0, 0, 1, 0, 0, 0, 0)
    expect(b.found(*size) == [B] and b.answer("erase", "store", C) == "1\n", "a find gives an entry that is gone, or an erase does not count it")
    c.counts_of("an entry without its reverse row", with_tables(good, V=but(V, of(C, V)), R=but(R, of(C, R))), 0, 0, 0, 1, 0, 0, 0)
    expect(b.answer("erase", "store", C) == "0\n" and b.found(*size) == [B, C], "an erase takes an entry without a reverse row")
    c.counts_of("a reverse row without its label", with_tables(good, R=but(R, of(C, R))), 0, 0, 0, 0, 1, 0, 0)
    expect(b.found(*size) == [B, C] and b.found_by(*both) == [B], "a find by several fields gives an id without a label")
    c.counts_of("a label of no document", with_tables(good, R=but(R, of(A, R)[:1]) + [b"\1" + bytes.fromhex(X) + of(A, R)[0][17:]]), 0, 0, 0, 0, 0, 1, 0)
    expect(b.answer("erase", "store", X) == "0\n", "an erase counts a label")
    c.counts("a label of no document, erased", *SOUND)
    c.counts_of("a label too many", with_tables(good, R=R + [of(A, R)[0][:17] + r.randbytes(44)]), 0, 0, 0, 0, 0, 0, 1)
    c.counts_of("a reverse row gone", with_tables(good, V=but(V, of(C, V))), 0, 0, 0, 1, 0, 1, 1)
    c.counts_of("all entries gone", with_tables(good, M=[]), 0, 0, 5, 0, 0, 0, 0)
    c.counts_of("all labels gone", with_tables(good, R=[]), 0, 0, 0, 0, 5, 0, 0)
    c.counts_of("entries and labels alone", with_tables(good, V=[]), 0, 0, 0, 5, 0, 5, 5)

    # tags, or ids, that differ in their last byte are two; so are those that differ in the first
    def near(row, at):
        return row[:at] + bytes([row[at] ^ 1]) + row[at + 1:]

    for at in (1, 32):
        c.counts_of("two counters' tags near", with_tables(good, C=K + [near(K[0], at)]), *SOUND)
        c.counts_of("two entries' tags near", with_tables(good, M=M + [near(M[0], at)]), 0, 0, 0, 1, 0, 0, 0)
    for at in (17, 48):
        c.counts_of("two reverse rows' tags near", with_tables(good, V=V + [near(V[0], at)]), 0, 0, 1, 0, 0, 0, 0)
    for at in (1, 16):
        c.counts_of("two reverse rows' ids near", with_tables(good, V=V + [near(V[0], at)]), 0, 0, 0, 0, 1, 0, 0)
        c.counts_of("two labels' ids near", with_tables(good, R=R[1:] + [near(R[0], at)]), *numbers_of(with_tables(good, R=R[1:] + [near(R[0], at)])))

    # several at once, in tables that are empty, full, or in between: the last row is looked at too
    met = [0] * 7
    for _ in range(120):
        few = [b"".join(r.choices((b"\0", b"\x7f", b"\x80", b"\xff"), k=2)) for _ in range(r.randint(1, 6))]
        tags, ids = [x * 16 for x in few] + [x * 15 + b"\0\1" for x in few], [x * 8 for x in few] + [x * 7 + b"\0\1" for x in few]
        store = with_tables(good, **{name: [b"\1" + make() for _ in range(r.choice((0, t.rows, r.randint(0, t.rows))))] for name, t, make in (
            ("M", scheme.tables(good)["M"], lambda: r.choice(tags) + r.randbytes(28)), ("V", scheme.tables(good)["V"], lambda: r.choice(ids) + r.choice(tags)),
            ("C", scheme.tables(good)["C"], lambda: r.choice(tags) + r.randbytes(28)), ("R", scheme.tables(good)["R"], lambda: r.choice(ids) + r.randbytes(44)))})
        b.store.write_bytes(store)
        numbers = numbers_of(store)
        expect(b.answer("check", "store") == check_lines(*numbers), f"rows by chance: expected {numbers}, printed {b.answer('check', 'store')!r}")
        met = [m + (n > 0) for m, n in zip(met, numbers)]
    expect(min(met) > 20, f"rows by chance met the kinds only {met} times")

    # counters and log of an older copy: nothing is seen yet, but the next insert takes an address in use
    b.store.write_bytes(good)
    D, E = ident(5), ident(6)
    b.answer("insert", "store", "key", "hue", "red", 0, D)
    new = b.store.read_bytes()
    c.counts_of("tables of two copies", with_tables(new, C=rows_in(good)["C"], S=rows_in(good)["S"]), *SOUND)
    expect(b.answer("insert", "store", "key", "hue", "red", 0, E) == "5\n", "an insert at an address in use")
    c.counts("an insert at an address in use", 1, 0, 0, 0, 0, 0, 0)
    found = b.found()
    expect((D in found) != (E in found) and len(found) == 3, f"a find gives {found} of an address with two entries")
    for id, other in ((D, E), (E, D)):
        left = b.store.read_bytes()
        expect(b.answer("erase", "store", id) == "1\n" and other not in b.found(), "an erase leaves the other entry of an address")
        c.counts("one of two entries at an address erased", 0, 0, 1, 0, 0, 0, 0)
        b.store.write_bytes(left)

    # no lock is made, and none is heeded; nothing but the store is opened, and it alone is read
    b.store.write_bytes(good)
    (b.folder / "store.lock").write_text("1 elsewhere\n")
    c.counts("a store that is locked", *SOUND)
    (b.folder / "store.lock").unlink()
    if shim:
        calls = [[call.name for call in b.watched([command, "store"])[3]] for command in ("check", "show")]
        expect(calls[0] == calls[1], f"a check makes the calls {calls[0]}, a show {calls[1]}")
    # refused, bad words, a failure: the statuses
    for content, number in ((good[:-1], 10), (good[:10] + b"\2" + good[11:], 11), (out_of_form(good), 20)):
        b.store.write_bytes(content)
        b.refused(["check", "store"], f"refused {number}", f"{number}: ")
        expect(c.status("check", "store") == 1, f"the status of a check that is refused by {number}")
    expect(c.status("check") == 2 and c.status("check", "store", "key") == 2 and c.status("check", "nowhere") == 3, "the status of a check that is not done")


def bad_words(b):
    a = ident(1)
    b.refused([], "misused", "expected: a command of: new")
    b.refused(["look"], "misused", "expected: a command of: new")
    b.refused(["find", "store", "key", "hue"], "misused", "expected: mazhkuri find STORE KEYFILE FIELD VALUE")
    for sizes in ([], [1, 4, 4, 4], [1, 4, 4, 4, 4, 4]):
        b.refused(["new", "other", *sizes], "misused", "expected: mazhkuri new STORE P M C S R: ")
    b.refused(["insert", "store", "key", "hue", "red"], "misused", "expected: mazhkuri insert")
    for words in (["order"], ["order", "store", "key"], ["order", "store", a], ["order", "store", "--token", a]):
        b.refused(words, "misused", "expected: mazhkuri order STORE")
    expect("mazhkuri order STORE" in b.answer("help", "order"), "help of order")
    for words in (["check"], ["check", "store", "key"], ["check", "store", "--token", a], ["check", "store", "--rows"]):
        b.refused(words, "misused", "expected: mazhkuri check STORE: ")
    expect(b.answer("help", "check").startswith("mazhkuri check STORE: "), "help of check")
    b.refused(["insert", "store", "key", "hue", "red", 0], "refused 5", "5: an insert takes 1 to 64 ids")
    b.refused(["insert", "store", "key", "hue", "red", 0] + [a] * 65, "refused 5", "5: ")
    b.refused(["insert", "store", "key", "hue", "red", 2, a], "refused 3", "3: SHARE must be 0 to 1")
    for share in ("", "-1", "1x", "9999999999"):
        b.refused(["insert", "store", "key", "hue", "red", share, a], "misused", "not a number")
    for word in ("", a[:31], a + "0", a[:31] + "g"):
        b.refused(["insert", "store", "key", "hue", "red", 0, a, word], "misused", "not an id")
        b.refused(["erase", "store", word], "misused", "not an id")
    b.refused(["find", "store", "key", "", "red"], "refused 2", "2: FIELD")
    b.refused(["find", "store", "key", "f" * 256, "red"], "refused 2", "2: FIELD")
    b.refused(["count", "store", "key", "hue", "v" * 1025], "refused 2", "2: FIELD")
    for n in (4096, 4097, 60000):
        b.refused(["count", "store", "key", "hue", "v" * n], "refused 2", "2: FIELD")
    b.refused(["count", "store", "key", "hue", "v" * 70000], "failed", "\n")
    expect(b.answer("count", "store", "key", "f" * 255, "v" * 1024) == "0\n", "the longest field")
    for path in ("s" * n for n in (4090, 4096, 4097)):
        for words in (["show", path], ["check", path], ["find", "store", path, "hue", "red"], ["erase", path, a], ["order", path], ["insert", path, "key", "hue", "red", 0, a],
                      ["compact", path, "key"], ["new", path, 1, 4, 4, 4, 4], ["key", path]):
            b.refused(words, "failed", "File name too long")
    b.refused(["new", "store", 1, 4, 4, 4, 4], "failed", "there already")
    for sizes in ([16, 4, 4, 4, 4], [1, 0, 4, 4, 4], [1, 4, 4097, 4, 4], [1, 4, 4, 99999, 4], [1, 4, 4, 4, 0], [1, 4, 4, 4, 4097], [1, 4, 4, 4, 65540]):
        b.refused(["new", "other", *sizes], "refused 7", "7: P must be 0 to 15, and M, C, S and R 1 to 4096 each")
    b.refused(["key", "key"], "failed", "File exists")
    (b.folder / "short").write_bytes(b"x" * 31)
    (b.folder / "long").write_bytes(b"x" * 33)
    for key in ("short", "long"):
        b.refused(["find", "store", key, "hue", "red"], "refused 1", "1: the key file must hold 32 bytes")
        b.refused(["compact", "store", key], "refused 1", "1: ")
    expect(b.answer("insert", "store", "key", "hue", "red", 0, a) == "1\n", "one logged insert")
    b.answer("key", "key2")
    b.refused(["compact", "store", "key2"], "refused", "not the one that the store was filled with")
    for words in (["help"], ["help", "insert"]):
        expect("mazhkuri insert STORE" in b.answer(*words), "help")


def halves(b):
    """An office's folder with the key and no store, a server's with the store and no key: tokens go from one to the other. Each
    token is the model's, each call with it does what the call with the key does."""
    office, server = b.folder / "office", b.folder / "server"
    for folder, moved in ((office, b.key), (server, b.store)):
        folder.mkdir()
        moved.rename(folder / moved.name)
    key, store, model = (office / "key").read_bytes(), server / "store", scheme.Scheme(Real)

    def made(*words):
        out, err = b.run("token", *words, cwd=office)
        expect(err == "" and out.endswith("\n") and out == out.lower(), f"{words}: {out!r} {err!r}")
        return out[:-1]

    def refused(words, cwd, first, part):
        before = store.read_bytes()
        out, err = b.run(*words, cwd=cwd)
        expect(out == first + "\n" and part in err, f"{words}: {out!r} {err!r}")
        expect(store.read_bytes() == before and not list(cwd.glob("*.lock")), f"{words}: the store changed, or is locked")

    def served(*words):
        out, err = b.run(*words, cwd=server)
        expect(err == "", f"{words}: {out!r} {err!r}")
        return out

    A, B, C = (ident(n) for n in range(3))
    find, count, compact = made("find", "key", "hue", "red"), made("count", "key", "hue", "red"), made("compact", "key")
    expect(find == model.find_token(key, b"hue", b"red").hex(), "a find token is the model's")
    expect(count == model.count_token(key, b"hue", b"red").hex(), "a count token is the model's")
    expect(compact == model.compact_token(key).hex(), "a compaction token is the model's")
    insert, again, other = (made("insert", "key", "hue", "red", 1, u) for u in (0, 0, 1))
    nonce = bytes.fromhex(insert)[97:109]
    expect(insert == model.insert_token(key, b"hue", b"red", 1, 0, nonce).hex(), "an insert token is the model's")
    expect(insert[194:218] != again[194:218], "each insert token has a nonce of its own")
    for name, text in (("insert", insert), ("bare", find), ("line", find + "\n"), ("two", find + "\n\n"), ("upper", find.upper() + "\n")):
        (server / name).write_text(text)
    expect(served("insert", "store", "--token", "@insert", A, B) == "2\n" and served("insert", "store", "--token", other, C) == "1\n", "inserts with tokens")
    for word in (find, find.upper(), "@bare", "@line", "@upper", f"@{server}/line"):
        expect(served("find", "store", "--token", word) == f"{A}\n{B}\n{C}\n", f"a find with a token: {word}")
    expect(served("count", "store", "--token", count) == "3\n", "a count with a token")
    expect(served("erase", "store", B) == "1\n" and served("compact", "store", "--token", compact) == "2 2\n", "a compaction with a token")
    expect(served("find", "store", "--token", find) == f"{A}\n{C}\n", "a find after it")
    shutil.copy(office / "key", server / "key")
    expect(served("find", "store", "key", "hue", "red") == f"{A}\n{C}\n", "the same with the key")
    (server / "key").unlink()
    output = bytearray(16 * 4)
    expect(model.find(store.read_bytes(), bytes.fromhex(find), output).values == (2,), "the model finds the same")

    # the server's refusals: 6 for what is no token of the call, 12 for another P, 5 for the ids; a file that is not there
    takes = {"insert": (insert, [A]), "find": (find, []), "count": (count, []), "compact": (compact, [])}
    for command, (good, ids) in takes.items():
        wrong = [t for t in (insert, find, count) if len(t) != len(good)] + ["", "00", good[:-1], good[:-2], good[:-64], good + "0", good + "00", good + "0" * 64, good[:-1] + "g", " " + good[1:], "@two"]
        for word in wrong:
            refused([command, "store", "--token", word, *ids], server, "refused 6", "6: this is no token for this command")
        refused([command, "store", "--token", "@", *ids], server, "failed", "cannot open")
        refused([command, "store", "--token", "@none", *ids], server, "failed", "cannot open none: No such file")
        refused([command, "store", "--token"], server, "misused", f"expected: mazhkuri {command} STORE")
    for command in ("find", "count", "compact"):
        refused([command, "store", "--token", takes[command][0], A], server, "misused", f"expected: mazhkuri {command} STORE")
    refused(["insert", "store", "--token", insert], server, "refused 5", "5: an insert takes 1 to 64 ids")
    refused(["insert", "store", "--token", insert] + [A] * 65, server, "refused 5", "5: ")
    refused(["insert", "store", "--token", insert, A, A[:31]], server, "misused", "not an id")
    refused(["insert", "store", "--token", made("insert", "key", "hue", "red", 2, 0), A], server, "refused 12", "12: the token was made for another P than the store's, which is 1: make one for this P")
    refused(["find", "none", "--token", find], server, "failed", "cannot open none: No such file")
    refused(["insert", "store", "key", "hue", "red", 0, A], server, "failed", "cannot open key: No such file")
    (office / "key2").write_bytes(os.urandom(32))
    served("insert", "store", "--token", insert, B)
    refused(["compact", "store", "--token", made("compact", "key2")], server, "refused", "not the one that the store was filled with")
    # the office's: 1 to 3, and words
    (office / "short").write_bytes(b"x" * 31)
    for command, more in (("insert", [1, 0]), ("find", []), ("count", [])):
        refused(["token", command, "short", "hue", "red", *more], office, "refused 1", "1: the key file must hold 32 bytes")
        refused(["token", command, "key", "", "red", *more], office, "refused 2", "2: FIELD")
        refused(["token", command, "none", "hue", "red", *more], office, "failed", "cannot open none: No such file")
        refused(["token", command, "key", "hue"], office, "misused", "expected: mazhkuri token insert KEYFILE")
    refused(["token", "compact", "short"], office, "refused 1", "1: ")
    refused(["token", "insert", "key", "hue", "red", 1, 2], office, "refused 3", "3: SHARE must be 0 to 1, which is P")
    refused(["token", "insert", "key", "hue", "red", 16, 0], office, "refused 3", "3: P must be 0 to 15, and SHARE 0 to P")
    expect(made("insert", "key", "hue", "red", 15, 15)[:2] == "0f", "the greatest P and SHARE")
    refused(["token", "insert", "key", "hue", "red", 1, "x"], office, "misused", "not a number")
    refused(["token", "insert", "key", "hue", "red", "x", 1], office, "misused", "not a number")
    for words in (["token"], ["token", "erase", "key"], ["token", "look", "key", "hue", "red"], ["token", "compact", "key", "hue"]):
        refused(words, office, "misused", "expected: mazhkuri token insert KEYFILE")


def no_stores(b):
    """Files that are no store: refused by 10 or 11, and left as they are [01:RS2 RS3]."""
    good = b.store.read_bytes()
    commands = [["insert", "store", "key", "hue", "red", 0, ident(1)], ["find", "store", "key", "hue", "red"],
                ["count", "store", "key", "hue", "red"], ["erase", "store", ident(1)], ["compact", "store", "key"], ["order", "store"], ["show", "store"], ["check", "store"],
                ["find", "store", "key", "hue", "red", "size", "L"]]
    foreign = random.Random(1).randbytes(len(good))
    for content in (b"", good[:1], good[:8], good[:9], good[:10], good[:-1], good + b"\0", b"\0" + good[1:], b"\3" + good[1:], b"\2\20" + good[2:], good[:8] + b"\0\0" + good[10:],
                    foreign, BUILT.read_bytes()):
        b.store.write_bytes(content)
        for words in commands:
            b.refused(words, "refused 10", "10: the file is no store")
    with open(b.store, "wb") as f:
        f.truncate(1 << 40)
    for words in commands:
        out, err = b.run(*words)
        expect(out == "refused 10\n" and "10: " in err, f"a huge file: {out!r}")
    expect(b.store.stat().st_size == 1 << 40, "the huge file changed")
    for t in scheme.tables(good).values():
        b.store.write_bytes(good[:t.start] + b"\7" + good[t.start + 1:])
        for words in commands:
            b.refused(words, "refused 11", "11: a row of the file is marked neither free nor used")
    b.store.unlink()
    for words in commands:
        b.refused(words, "failed", "cannot open store: No such file")
    b.store.mkdir()
    out, err = b.run(*commands[1])
    expect(out == "failed\n" and "Is a directory" in err, "a folder for a store")
    b.store.rmdir()
    b.store.write_bytes(good)
    b.store.chmod(0o644)


def states(b):
    """13, 14, 16 and 17, with what is said to do [01:RS6 RS7 RS9 RS10 RS13]. 18 cannot be met: the tool lends room for every row of M."""
    hue = ["insert", "store", "key", "hue", "red", 0]
    fresh = b.store.read_bytes()

    def store_is(content):
        b.store.write_bytes(content)

    def forged(count):
        """A store with a counter of this count under hue=red, share 0, sealed as the rules seal it."""
        model, store, key = scheme.Scheme(Real), bytearray(fresh), b.key.read_bytes()
        cl = model.F(model.counter_key(key, b"hue", b"red"), scheme.number(0))
        model.put_c(store, cl, model.counter_tag(cl, 1), bytes(12), 0, count)
        return bytes(store)

    store_is(forged(2 ** 32 - 2))
    expect(b.answer("count", "store", "key", "hue", "red") == "4294967294\n", "a count just below the limit")
    expect(b.answer(*hue, ident(1)) == "4294967295\n", "the greatest count")
    b.refused(hue + [ident(2)], "refused 14", "14: the count of this share would pass 4294967295")
    store_is(forged(2 ** 32))
    reading = [["count", "store", "key", "hue", "red"], ["find", "store", "key", "hue", "red"]]
    for words in reading + [hue + [ident(1)]]:
        b.refused(words, "refused 13", "13: a counter in the file does not hold what was written")
    store_is(fresh)
    b.answer(*hue, ident(1))
    damaged = bytearray(b.store.read_bytes())
    rows = scheme.tables(damaged)["C"]
    damaged[rows.start + rows.width * scheme.used(damaged, rows)[0] + 45] ^= 1
    store_is(damaged)
    for words in reading + [hue + [ident(2)]]:
        b.refused(words, "refused 13", "13: ")
    out, err = b.run("compact", "store", "key")
    expect(out == "refused 13\n" and err.endswith("before it: 0 0\n"), f"a compaction of a damaged store: {out!r} {err!r}")
    store_is(fresh)
    fields = {("size", "L"): ident(1), ("hue", "red"): ident(2)}
    for field, id in fields.items():
        b.answer("insert", "store", "key", *field, 0, id)
    # the log is in byte order, by the tokens' nonces: which field comes second differs
    damaged, model, key = bytearray(b.store.read_bytes()), scheme.Scheme(Real), b.key.read_bytes()
    cls = {model.F(model.counter_key(key, *(x.encode() for x in field)), scheme.number(0)): field for field in fields}
    first, second = model.labels_of_s(damaged, model.compact_token(key))
    damaged[rows.start + rows.width * scheme.lookup(damaged, rows, model.counter_tag(second, 1)) + 45] ^= 1
    store_is(damaged)
    out, err = b.run("compact", "store", "key")
    expect(out == "refused 13\n" and err.endswith("before it: 1 1\n"), f"a compaction that meets damage second: {out!r} {err!r}")
    expect("log      (S) [##########..........] 1 of 2 rows used" in b.answer("show", "store"), "what was treated before the damage stays treated")
    expect(b.in_form(), "a compaction that meets damage leaves rows out of order")
    expect(b.found(*cls[first]) == [fields[cls[first]]], "a field treated before the damage")
    b.refused(["count", "store", "key", *cls[second]], "refused 13", "13: ")
    store_is(fresh)
    for n in range(2):
        expect(b.answer(*hue, ident(n)) == f"{n + 1}\n", "an insert for each row of S")
    b.refused(hue + [ident(3)], "refused 17", "17: no log row is free: compact the store")
    expect(b.answer("compact", "store", "key") == "1 2\n" and b.answer(*hue, ident(3)) == "3\n", "a compaction frees rows of S")
    b.answer("compact", "store", "key")
    for n, field in enumerate(("size", "length")):
        expect(b.answer("insert", "store", "key", field, "L", 0, ident(4 + n)) == "1\n", "a field's first counter")
    b.refused(["insert", "store", "key", "mark", "L", 0, ident(6)], "refused 16", "16: no counter row is free: compact the store")
    b.answer("compact", "store", "key")
    b.refused(["insert", "store", "key", "mark", "L", 0, ident(6)], "refused 16", "16: no counter row is free: compact does not help")


def small_stack(b):
    """Every command on the largest store with 2 MiB of stack."""
    ids = [ident(n) for n in range(64)]
    limit = {"preexec_fn": lambda: resource.setrlimit(resource.RLIMIT_STACK, (2 << 20, 2 << 20))}
    for words, answer in ([["insert", "store", "key", "hue", "red", 15, *ids], "64\n"], [["find", "store", "key", "hue", "red"], "\n".join(ids) + "\n"],
                          [["count", "store", "key", "hue", "red"], "64\n"], [["erase", "store", ids[0]], "1\n"], [["compact", "store", "key"], "1 1\n"],
                          [["find", "store", "key"] + ["hue", "red"] * 8, "\n".join(ids[1:]) + "\n"], [["order", "store"], "190\n"]):
        expect(b.run(*words, **limit) == (answer, ""), f"{words[0]} with a small stack")
    expect(b.run("show", "store", **limit)[0].startswith("a store for shares 0 to 15\n"), "show with a small stack")
    # every row used, in any order
    fresh, r = b.store.read_bytes(), random.Random(8)
    full, wanted = bytearray(fresh), bytearray(fresh)
    for t in scheme.tables(full).values():
        used = [b"\1" + r.randbytes(t.width - 1) for _ in range(t.rows)]
        form.written(full, t, used)
        form.written(wanted, t, sorted(used))
    b.store.write_bytes(full)
    expect(b.run("count", "store", "key", "hue", "red", **limit)[0] == "refused 20\n", "20 on a full store")
    expect(b.run("order", "store", **limit) == ("20480\n", "") and b.store.read_bytes() == wanted, "an order of a full store with a small stack")
    expect(b.run("check", "store", **limit) == (check_lines(0, 0, 4096, 4096, 4096, 4096, 0), ""), "a check of a full store with a small stack")
    b.store.write_bytes(fresh)
    # counts that sum to either side of the rows of the largest table: a find then keeps another number of ids
    fresh, model, key = b.store.read_bytes(), scheme.Scheme(Real), b.key.read_bytes()
    for count in (4093, 4094, 5000):
        store = bytearray(fresh)
        cl = model.F(model.counter_key(key, b"hue", b"green"), scheme.number(3))
        model.put_c(store, cl, model.counter_tag(cl, 1), bytes(12), 0, count)
        b.store.write_bytes(store)
        green = ["store", "key", "hue", "green"]
        expect(b.run("insert", *green, 3, ids[1], ids[2], ids[1], **limit) == (f"{count + 3}\n", ""), "an insert after a forged count")
        expect(b.run("find", *green, **limit) == (f"{ids[1]}\n{ids[2]}\n", ""), f"a find of {count + 3} addresses with a small stack")


def no_room(b):
    """A write that fails: the store is as it was."""
    insert = ["insert", "store", "key", "hue", "red", 0, ident(2)]
    changing = [insert, ["erase", "store", ident(1)], ["compact", "store", "key"], ["order", "store"]]
    for limit in (100, 500):
        for words in changing:
            b.refused(words, "failed", "cannot write store.new: File too large", restore_signals=False,
                      preexec_fn=lambda: resource.setrlimit(resource.RLIMIT_FSIZE, (limit, limit)))
    tried = ["a limit on a file's size"]
    if shutil.which("cc"):
        # a disk that takes 500 bytes more
        source, full = b.folder / "full.c", b.folder / "full.so"
        source.write_text("#include <errno.h>\n#include <sys/syscall.h>\n#include <unistd.h>\n"
                          "ssize_t write(int fd, const void *from, size_t n) {\n"
                          "  static size_t left = 500;\n"
                          "  if (fd > 2 && left == 0) return errno = ENOSPC, -1;\n"
                          "  if (fd > 2 && n > left) n = left;\n"
                          "  if (fd > 2) left -= n;\n"
                          "  return syscall(SYS_write, fd, from, n);\n}\n")
        subprocess.run(["cc", "-shared", "-fPIC", "-o", full, source], check=True)
        for words in changing:
            b.refused(words, "failed", "cannot write store.new: No space left", env={"LD_PRELOAD": str(full)})
        tried.append("a full disk")
    else:
        left_out("a full disk", "there is no cc")
    room = b.folder / "disk"
    room.mkdir()
    if os.geteuid() == 0 and shutil.which("mount") and subprocess.run(["mount", "-t", "tmpfs", "-o", "size=8k", "tmpfs", room], capture_output=True).returncode == 0:
        # where mount is allowed, a file system that is full as well
        try:
            shutil.copy(b.store, room / "store")
            before = (room / "store").read_bytes()
            for n in range(2):
                try:
                    (room / f"filler{n}").write_bytes(b"x" * 4096)
                except OSError:
                    pass
            out, err = b.run("insert", "disk/store", "key", "hue", "red", 0, ident(2))
            expect(out == "failed\n" and "No space left" in err, f"a full disk: {out!r} {err!r}")
            expect((room / "store").read_bytes() == before, "a full disk: the store changed")
            tried.append("a full file system")
        finally:
            subprocess.run(["umount", room], check=True)
    if os.geteuid() == 0:
        os.chmod(b.key, 0o644)
        for words in changing:
            b.refused(words, "failed", "cannot make store.lock: Permission denied", user=NOBODY)
        out, err = b.run("find", "store", "key", "hue", "red", user=NOBODY)
        expect((out, err) == (ident(1) + "\n", ""), "reading needs no right to write")
        os.chmod(b.key, 0o600)
        b.refused(["find", "store", "key", "hue", "red"], "failed", "cannot open key: Permission denied", user=NOBODY)
        tried.append("a folder that may not be written")
    else:
        left_out("a folder that may not be written", "only root can run the tool as another user")
    if shutil.which("cc"):
        source, none = b.folder / "no.c", b.folder / "no.so"
        source.write_text("int getentropy(void *p, unsigned long n) { return -1; }\n")
        subprocess.run(["cc", "-shared", "-fPIC", "-o", none, source], check=True)
        for words in [changing[0], changing[2], ["key", "key3"]]:
            b.refused(words, "failed", "cannot get random bytes", env={"LD_PRELOAD": str(none)})
        expect(not (b.folder / "key3").exists(), "a key of no randomness")
        tried.append("no randomness")
    else:
        left_out("no randomness", "there is no cc")
    print("  store unchanged under: " + ", ".join(tried))


def links(b):
    """A link is not changed: under another name the store would have another lock. Reading goes through it."""
    target = b.store.rename(b.folder / "target")
    b.store.symlink_to("target")
    insert = ["insert", "store", "key", "hue", "red", 0, ident(1)]
    for words in (insert, ["erase", "store", ident(1)], ["compact", "store", "key"], ["order", "store"], ["new", "store", 1, 4, 4, 4, 4]):
        b.refused(words, "failed", "store is a link: give the name of the file itself")
    expect(b.answer("insert", "target", *insert[2:]) == "1\n" and b.found() == [ident(1)], "a store is read through a link")
    target.unlink()
    b.refused(["new", "store", 1, 4, 4, 4, 4], "failed", "store is a link")
    expect(b.store.is_symlink() and not target.exists(), "a link that leads nowhere is left")
    b.refused(["key", "store"], "failed", "cannot make store: File exists")


def odd_names(b):
    """The name of a file is text: one that is not UTF-8 is not handed to the system, and nothing is made or changed. Below a folder of
    such a name files have theirs from there."""
    odd, none = os.fsdecode(b"odd\xff"), os.fsdecode(b"\xff")
    shutil.copy(b.store, b.folder / odd)
    before = b.files()
    for words, said in ((["find", odd, "key", "hue", "red"], f"cannot open {odd}"), (["find", "store", odd, "hue", "red"], f"cannot open {odd}"),
                        (["find", "store", "--token", "@" + odd], f"cannot open {odd}"), (["erase", odd, ident(1)], f"cannot make {odd}.lock"),
                        (["new", none, 1, 4, 4, 4, 4], f"cannot make {none}.lock"), (["key", none], f"cannot make {none}")):
        told = b.run(*words, errors="surrogateescape")
        expect(told == ("failed\n", said + ": invalid filename\n"), f"odd names: {words}: {told}")
        expect(b.files() == before, f"odd names: {words}: a file was made or changed")
    (b.folder / none).mkdir()
    for words in (["new", "store", 1, 4, 4, 4, 4], ["key", "key"]):
        expect(b.run(*words, cwd=b.folder / none) == ("", ""), f"odd names: {words} in a folder of such a name")
    expect(len((b.folder / none / "key").read_bytes()) == 32, "odd names: the key in a folder of such a name")


def modes(b):
    """A store that is replaced keeps owner, group and mode; where it may not, the mode is narrowed."""
    def has():
        s = b.store.stat()
        return s.st_uid, s.st_gid, stat.S_IMODE(s.st_mode)

    def kept(mode, uid, gid, then, **who):
        for n, words in enumerate((["insert", "store", "key", "hue", "red", 0, ident(1)], ["erase", "store", ident(1)], ["compact", "store", "key"], ["order", "store"])):
            os.chown(b.store, uid, gid)
            os.chmod(b.store, mode)
            out, err = b.run(*words, **who)
            expect(err == "" and not out.startswith(UNDONE), f"modes: {words}: {out!r} {err!r}")
            expect(has() == then, f"modes: {words} on {mode:o}: {has()}, expected {then}")

    me, mine = os.geteuid(), os.getegid()
    for mask in (0o022, 0o077):
        b.store.unlink()
        expect(b.run("new", "store", 1, 64, 64, 64, 64, umask=mask) == ("", "") and has() == (me, mine, 0o666 & ~mask), f"a new store has the umask's mode: {has()}")
        for mode in (0o600, 0o640, 0o644, 0o664):
            kept(mode, me, mine, (me, mine, mode), umask=mask)
    if me == 0:
        kept(0o640, NOBODY, 12, (NOBODY, 12, 0o640))
        os.chmod(b.folder, 0o777)
        os.chmod(b.key, 0o644)
        nobody = {"user": NOBODY, "group": NOBODY, "extra_groups": [12]}
        kept(0o664, NOBODY, 12, (NOBODY, 12, 0o664), **nobody)
        kept(0o6664, 0, 12, (NOBODY, 12, 0o664), **nobody)
        kept(0o6664, 0, 13, (NOBODY, NOBODY, 0o600), **nobody)
        kept(0o664, NOBODY, 13, (NOBODY, NOBODY, 0o600), **nobody)
    else:
        left_out("stores of other owners", "only root can make them")
    if shim:
        # a file that others may open when its mode is set could be read by them later
        os.chown(b.store, me, mine)
        os.chmod(b.store, 0o600)
        for words in (["insert", "store", "key", "hue", "red", 0, ident(1)], ["erase", "store", ident(1)], ["compact", "store", "key"], ["order", "store"], ["key", "key2"]):
            out, err, _, calls = b.watched(words, umask=0o022)
            expect(err == "" and not out.startswith(UNDONE), f"modes: {words}: {out!r} {err!r}")
            before = [int(c.words[1], 8) for c in calls if c.name == "fchmod"]
            expect(before and not any(mode & 0o077 for mode in before), f"modes: {words}: open to others before its mode is set: {before}")
    else:
        left_out("a file is never open to others", "there is no cc")
    expect(not [p.name for p in b.folder.iterdir() if p.suffix in (".new", ".lock") or len(p.suffix) == 7], "modes: something is left behind")


# Stops the tool at its first sync, with the lock made. A host's name of 64 bytes has no 0 after it.
HELD = """
#define _GNU_SOURCE
#include <fcntl.h>
#include <signal.h>
#include <stdarg.h>
#include <stdlib.h>
#include <string.h>
#include <sys/mman.h>
#include <sys/syscall.h>
#include <unistd.h>
int fsync(int fd) {
  if (getenv("STOP")) raise(SIGSTOP);
  return syscall(SYS_fsync, fd);
}
int open(const char *name, int flags, ...) {
  va_list more;
  va_start(more, flags);
  int mode = va_arg(more, int);
  va_end(more);
  if (strcmp(name, "/proc/sys/kernel/hostname")) return syscall(SYS_openat, AT_FDCWD, name, flags, mode);
  char line[65];
  memset(line, 'h', 64);
  line[64] = 10;
  int fd = memfd_create("host", 0);
  if (write(fd, line, 65) != 65 || lseek(fd, 0, SEEK_SET)) abort();
  return fd;
}
"""

# Has no room for more bytes than ROOM in files.
FULL = """
#include <errno.h>
#include <stdlib.h>
#include <sys/syscall.h>
#include <unistd.h>
ssize_t write(int fd, const void *from, size_t n) {
  static long left = -1;
  if (left < 0) left = atoi(getenv("ROOM"));
  if (fd > 2 && left == 0) return errno = ENOSPC, -1;
  if (fd > 2 && (long)n > left) n = left;
  if (fd > 2) left -= n;
  return syscall(SYS_write, fd, from, n);
}
"""

# A process that ends by itself, after its lock was read and before it is asked for: its lock is gone, or is another's.
GONE = """
#define _GNU_SOURCE
#include <errno.h>
#include <fcntl.h>
#include <stdlib.h>
#include <string.h>
#include <sys/syscall.h>
#include <unistd.h>
int statx(int fd, const char *name, int flags, unsigned mask, void *found) {
  if (strncmp(name, "/proc/", 6) || !strcmp(name, "/proc/1")) return syscall(SYS_statx, fd, name, flags, mask, found);
  unlink("store.lock");
  if (getenv("NEXT")) {
    int fd = open("store.lock", O_WRONLY | O_CREAT, 0600);
    if (write(fd, "1 next\\n", 7) != 7) abort();
    close(fd);
  }
  return errno = ENOENT, -1;
}
"""


def lock(b):
    """What a lock says: its line, what a tool says that finds it, whatever it holds, and that a lock that cannot be written is not left."""
    here, at = os.uname().nodename, b.folder / "store.lock"
    erase = ["erase", "store", ident(1)]
    changing = [["insert", "store", "key", "hue", "red", 0, ident(1)], erase, ["compact", "store", "key"], ["order", "store"], ["new", "store", 1, 4, 4, 4, 4]]
    unknown = "another mazhkuri is changing this store: try again; if none is running, one was stopped: remove {}\n"
    running = "process {} is changing this store: wait until it has ended, then try again (if that is no mazhkuri, remove {})\n"
    stopped = "process {} was stopped while it was changing this store, which is whole: remove {}, then try again\n"
    elsewhere = "process {} on {} is changing this store: look there whether it runs; if not, remove {}, then try again\n"

    def says(said, words=erase, **more):
        before, held = b.store.read_bytes(), at.read_bytes() if at.is_file() else None
        out, err = b.run(*words, **more)
        expect(out == "failed\n" and err == said, f"lock: {held!r}: {out!r} {err!r}, expected {said!r}")
        expect(b.store.read_bytes() == before and at.exists(), f"lock: {held!r}: the store or the lock changed")
        expect(not at.is_file() or os.geteuid() != 0 or at.read_bytes() == held, "lock: the lock's bytes changed")

    def unwritten(said, **more):
        """The lock cannot be written: nothing is changed, and no lock is left."""
        for words in changing[:4]:
            before = b.files()
            out, err = b.run(*words, **more)
            expect(out == "failed\n" and err == said and b.files() == before, f"lock: {words}: {out!r} {err!r}, {sorted(b.files())}")

    def ended():
        """A process that has ended."""
        process = subprocess.Popen(["true"])
        process.wait()
        return process.pid

    gone, mine = ended(), os.getpid()
    for words in changing:
        at.write_text(f"{mine} {here}\n")
        says(running.format(mine, at.name), words)
        at.write_text(f"{gone} {here}\n")
        says(stopped.format(gone, at.name), words)
        at.write_text(f"{gone} another.host\n")
        says(elsewhere.format(gone, "another.host", at.name), words)
        at.write_bytes(b"")
        says(unknown.format(at.name), words)
    at.write_text(f"{gone} {here}\n")
    says(stopped.format(gone, at), ["erase", b.store, ident(1)])
    for line, said in ((f"00{mine} {here}\n", running.format(mine, at.name)), (f"999999999 {here}\n", stopped.format(999999999, at.name)),
                       (f"1 {here}x\n", elsewhere.format(1, here + "x", at.name)), (f"1 {here[:-1]}~\n", elsewhere.format(1, here[:-1] + "~", at.name)),
                       ("1 !\n", elsewhere.format(1, "!", at.name)), (f"1 {'h' * 125}\n", elsewhere.format(1, "h" * 125, at.name))):
        at.write_text(line)
        says(said)
    r = random.Random(3)
    name = here.encode()
    hostile = [b"\n", b" ", b" \n", b"1", b"1\n", b"1 ", b"1 \n", b"1 " + name, name + b"\n", b" 1 " + name + b"\n", b"1  " + name + b"\n",
               b"1 " + name + b" \n", b"1 " + name + b"\n\n", b"1 " + name + b"\n1 " + name + b"\n", b"1 " + name + b"\r\n", b"1\t" + name + b"\n",
               b"0 " + name + b"\n", b"-1 " + name + b"\n", b"+1 " + name + b"\n", b"0x1 " + name + b"\n", b"1. " + name + b"\n",
               b"1000000000 " + name + b"\n", b"4294967297 " + name + b"\n", b"18446744073709551617 " + name + b"\n", b"9" * 100 + b" h\n",
               b"1 h\x1b[2J\n", b"1 h\0\n", b"1 h\x7f\n", b"1 \xc3\xa9\n", b"1 " + b"h" * 126 + b"\n", b"1 h\n" + b"x" * 70000, b"1" * 70000,
               bytes(1000)] + [r.randbytes(n) for n in (1, 10, 100, 1000)]
    for content in hostile:
        at.write_bytes(content)
        says(unknown.format(at.name))
    at.write_text(f"{gone} {here}\n")
    if os.geteuid() == 0:
        at.chmod(0)
        os.chmod(b.folder, 0o777)
        says(unknown.format(at.name), user=NOBODY)
        os.chmod(b.folder, 0o755)
    else:
        left_out("a lock that may not be read", "only root can run the tool as another user")
    at.unlink()
    at.mkdir()
    says(unknown.format(at.name))
    at.rmdir()
    at.symlink_to("nowhere")
    out, err = b.run(*erase)
    expect(out == "failed\n" and err == unknown.format(at.name), f"lock: a link that leads nowhere: {out!r} {err!r}")
    at.unlink()
    for limit in (0, 1):
        unwritten("cannot write store.lock: File too large\n", restore_signals=False,
                  preexec_fn=lambda: resource.setrlimit(resource.RLIMIT_FSIZE, (limit, limit)))
    if shim:
        # a system that does not answer what it is asked is no reason to say that a process was stopped
        for call, name, said in (("statx", f"/proc/{gone}", running.format(gone, at.name)),
                                 ("open", "/proc/sys/kernel/hostname", elsewhere.format(gone, here, at.name))):
            at.write_text(f"{gone} {here}\n")
            made = [n for n, c in enumerate(b.watched(erase)[3], 1) if c.name == call and name in c.words]
            expect(len(made) == 1, f"lock: {call} of {name} is made {len(made)} times")
            out, err, _, _ = b.watched(erase, made[0], fail=True)
            expect(out == "failed\n" and err == said, f"lock: {call} fails: {out!r} {err!r}")
        at.unlink()
    if not shutil.which("cc"):
        return left_out("a lock that is held, and a full disk", "there is no cc")
    libraries = {}
    for kind, text in (("held", HELD), ("full", FULL), ("gone", GONE)):
        (b.folder / f"{kind}.c").write_text(text)
        libraries[kind] = b.folder / f"{kind}.so"
        subprocess.run(["cc", "-shared", "-fPIC", "-o", libraries[kind], b.folder / f"{kind}.c"], check=True)
    for room in (0, 1, 5):
        unwritten("cannot write store.lock: No space left on device\n", env={"LD_PRELOAD": str(libraries["full"]), "ROOM": str(room)})
    for after in ({}, {"NEXT": "1"}):
        at.write_text(f"{gone} {here}\n")
        told = b.run(*erase, env={"LD_PRELOAD": str(libraries["gone"]), **after})
        expect(told[0] == "failed\n" and told[1] == unknown.format(at.name), f"lock: a process that ended by itself: {told}")
        at.unlink(missing_ok=True)
    long = {"env": {"LD_PRELOAD": str(libraries["held"])}}
    for words, answer in ((changing[0], "1\n"), (erase, "1\n"), (changing[2], "1 1\n"), (changing[3], "1\n")):
        before = b.store.read_bytes()
        for force in (True, False):
            run = b.start(*words, env={**long["env"], "STOP": "1"})
            _, status = os.waitpid(run.pid, os.WUNTRACED)
            expect(os.WIFSTOPPED(status), f"lock: {words}: never stopped")
            expect(at.read_text() == f"{run.pid} {'h' * 64}\n", f"lock: it holds {at.read_bytes()!r}, its process is {run.pid}")
            says(running.format(run.pid, at.name), **long)
            says(elsewhere.format(run.pid, "h" * 64, at.name))
            if force:
                run.kill()
                expect(run.communicate() == ("", ""), "lock: a tool that was stopped by force said something")
                says(stopped.format(run.pid, at.name), **long)
                expect(b.store.read_bytes() == before, "lock: the store that was left is another one")
                at.unlink()
            else:
                while run.poll() is None:
                    run.send_signal(signal.SIGCONT)
                    time.sleep(0.01)
                expect(run.communicate() == (answer, "") and not at.exists(), f"lock: {words}: after it was held")


def at_once(b, tools=4, each=25):
    """Tools that change one store at the same time: every insert is there once [01:SC6]."""
    def work(t):
        """One tool's inserts; how often it met the lock."""
        met, until = 0, time.monotonic() + 60
        for n in range(each):
            words = ["insert", "store", "key", "hue", "red", t % 2, ident(1000 * t + n)]
            while True:
                out, err = b.run(*words)
                if not out.startswith(UNDONE):
                    break
                # never that one was stopped: a lock that is gone, or is another's by now, is not taken for one that was left
                expect(out == "failed\n" and " is changing this store: " in err, f"at once: {out!r} {err!r}")
                expect(time.monotonic() < until, "at once: the lock is never given back")
                met += 1
        return met

    with concurrent.futures.ThreadPoolExecutor(tools) as pool:
        # a result is the thread's, its failure too
        met = sum(done.result() for done in [pool.submit(work, t) for t in range(tools)])
    ids, found = [ident(1000 * t + n) for t in range(tools) for n in range(each)], b.found()
    lost = len(set(ids) - set(found))
    expect(lost == 0 and sorted(found) == sorted(ids), f"at once: {lost} of {len(ids)} inserts lost, {len(found)} ids found")
    expect(b.answer("count", "store", "key", "hue", "red") == f"{len(ids)}\n", "at once: count")
    expect(met, "at once: no tool met another's lock")
    print(f"  {tools} tools at once: {len(ids)} inserts, lock met {met} times, lost {lost}")


# For each changing command how many calls of the system it makes at least, and which must be among them.
REPLACING = {"statx", "open", "getpid", "read", "close", "fchown", "fchmod", "write", "fsync", "rename", "unlink"}
MAKES = {"insert": (30, REPLACING | {"getentropy"}), "erase": (20, REPLACING), "order": (20, REPLACING), "compact": (25, REPLACING | {"getentropy"}),
         "new": (12, {"statx", "open", "getpid", "write", "fsync", "close", "rename", "unlink"}),
         "key": (10, {"getentropy", "open", "rename", "fchmod", "write", "fsync", "close"})}


def compiled(folder):
    """tests/calls.c as a library to preload. It stands before every call of the system that the program names."""
    library = pathlib.Path(folder) / "calls.so"
    subprocess.run(["cc", "-Wall", "-Werror", "-Wno-nonnull-compare", "-shared", "-fPIC", "-o", library, HERE / "calls.c", "-ldl"], check=True)

    def names(*words):
        lines = subprocess.run(["nm", "-D", "-P", *words], check=True, capture_output=True, text=True).stdout.splitlines()
        return {line.split()[0].split("@")[0] for line in lines}

    # what is no call of the system, and what the start makes: `__write` only where the processor is not one that the program is for
    others = {"memcpy", "memmove", "memset", "__errno_location", "__xpg_strerror_r", "__libc_start_main", "__sysv_signal", "__write",
              "__x86_get_cpuid_feature_leaf", "__cxa_finalize", "__gmon_start__", "_ITM_registerTMCloneTable", "_ITM_deregisterTMCloneTable"}
    called = names("--undefined-only", BUILT) - others
    unseen = called - names("--defined-only", library)
    expect(called and not unseen, f"tests/calls.c does not stand before {unseen or 'any call'}")
    return library


def points(b, words, clean, check):
    """Runs the command once whole, then once for each call of the system that it makes: ended before it, then with that call
    failing. Gives how many calls there are."""
    clean()
    out, err, status, calls = b.watched(words)
    made = [c.name for c in calls]
    least, among = MAKES[words[0]]
    expect(status == 0 and least <= len(made) and among <= set(made), f"{words}: the calls are {made}")
    check(f"{words}, whole", out, err, False)
    for fail, (at, call) in itertools.product((False, True), enumerate(calls, 1)):
        clean()
        out, err, status, now = b.watched(words, at, fail)
        where = f"{words}, {'failing' if fail else 'ended before'} call {at}, {call.name}"
        expect([c.name for c in now[:at]] == made[:at if fail else at - 1], f"{where}: other calls before it: {[c.name for c in now]}")
        expect(now[at - 1].told == -1 if fail else status == -9 and len(now) == at - 1, f"{where}: it was not met")
        check(where, out, err, fail)
    return len(calls)


def every_point(b):
    """Before each call of the system that a command makes: ended by kill -9 there, or with that call failing. The store is the
    old one or the new one, the new one where an answer was printed, the old one where the command was refused."""
    if not shim:
        return left_out("every point", "there is no cc")
    inserted = ["insert", "store", "key", "hue", "red", 0]
    b.answer(*inserted, ident(1), ident(2))
    begin, calls = b.store.read_bytes(), 0

    def state():
        return b.run("find", "store", "key", "hue", "red"), b.run("show", "store"), b.in_form()

    def clean():
        for path in list(b.folder.iterdir()):
            if path.suffix in (".new", ".lock") or len(path.suffix) == 7 or path.name in ("store2", "key2"):
                path.unlink()
        b.store.write_bytes(begin)

    for words, begin in ((inserted + [ident(3)], begin), (["erase", "store", ident(1)], begin), (["compact", "store", "key"], begin),
                         (["order", "store"], out_of_form(begin))):
        clean()
        old, answer, new = state(), b.answer(*words), state()
        expect(old != new, f"{words} changes nothing")

        def check(where, out, err, fail):
            now = state()
            expect(now in (old, new), f"{where}: neither the old store nor the new one")
            expect(now == new or out != answer, f"{where}: answered and not made")
            expect(now == old or not out.startswith(UNDONE), f"{where}: refused and made")
            expect(out in ("", "failed\n", answer), f"{where}: {out!r}")
            expect(err or not fail or now == new, f"{where}: nothing is said")

        calls += points(b, words, clean, check)
    for words, size in ((["new", "store2", 1, 4, 4, 4, 4], scheme.length_of(4, 4, 4, 4)), (["key", "key2"], 32)):
        made = b.folder / words[1]

        def check(where, out, err, fail):
            # a key's name is taken by an empty file first
            expect(not made.exists() or made.stat().st_size in (size, 0 if words[0] == "key" else size), f"{where}: half a file")
            expect(out != "failed\n" or not made.exists(), f"{where}: refused and made")
            expect(err or not fail or made.stat().st_size == size, f"{where}: nothing is said")

        calls += points(b, words, clean, check)
    print(f"  every point: ended before each of {calls} calls of the system, and each of these failing; never half a change")


def wrong_states(states, name, olds, new):
    """The states in which the file is neither an old one nor the new one, or not the new one though there was an answer."""
    return [dict(s) for s, answered in states.items() if dict(s).get(name) not in ([new] if answered else [*olds, new])]


def power_cut(b):
    """What a changing command answers is safe: it writes the new file, syncs it, renames it, syncs the folder, then answers. And
    whatever a power cut leaves on the way, the tool finds the old store or the new one, the new one once there was an answer. A
    new key is there whole or not at all; its name may be taken by an empty file, which is refused by 1."""
    if not shim:
        return left_out("power cuts", "there is no cc")
    insert = ["insert", "store", "key", "hue", "red", 0]
    b.answer(*insert, ident(1), ident(2))
    begin, met = b.files(), {}
    answering, silent = ["write", "sync", "rename", "sync folder", "answer"], ["write", "sync", "rename", "sync folder"]

    def ordered(words, name, order):
        """The whole run of a command, held to the order; the disk's states after each call, and what the run printed."""
        before = b.files()
        out, err, _, calls = b.watched(words)
        expect(err == "" and not out.startswith(UNDONE), f"{words}: {out!r} {err!r}")
        last, states = disk.cuts(b.folder, before, calls)
        expect(last.files() == b.files(), f"{words}: the calls told give other files than there are")
        folder, file = os.path.dirname(name) or ".", last.names[name]
        steps = [s[0] for s in last.steps if s in (("write", file), ("sync", file), ("rename", file, name), ("sync folder", folder), ("answer",))]
        expect([s for s, _ in itertools.groupby(steps)] == order, f"{words}: the order is {steps}, expected {order}")
        return out, calls, states

    def unsynced(words, out, calls, stands):
        """A folder that cannot be synced: the change stands and is answered, and a message says what was not had."""
        sync = max(n for n, c in enumerate(calls, 1) if c.name == "fsync")
        opened = max(n for n, c in enumerate(calls[:sync], 1) if c.name == "open")
        for at, said in ((sync, "sync (the change is made)"), (opened, "open, to sync it (the change is made),")):
            b.lay(begin)
            told = b.watched(words, at, fail=True)[:2]
            expect(told == (out, f"cannot {said} .: Input/output error\n"), f"{words}: a folder that cannot be synced: {told}")
            expect(stands(b.files()), f"{words}: a folder that cannot be synced: the change does not stand")

    with tempfile.TemporaryDirectory() as folder:
        cut = Bench(folder, None)

        def view(files):
            cut.lay(files)
            return [cut.run(*words) for words in (["show", "store"], ["find", "store", "key", "hue", "red"], ["show", "store2"], ["find", "store", "key2", "hue", "red"])]

        mixed = {**begin, "store": out_of_form(begin["store"])}
        for words, name, order, begin in ((insert + [ident(3)], "store", answering, begin), (["erase", "store", ident(1)], "store", answering, begin),
                                          (["compact", "store", "key"], "store", answering, begin), (["order", "store"], "store", answering, mixed),
                                          (["new", "store2", 1, 4, 4, 4, 4], "store2", silent, begin), (["key", "key2"], "key2", silent, begin)):
            b.lay(begin)
            out, calls, states = ordered(words, name, order)
            end = b.files()
            olds, new = [begin.get(name)] + [b""] * (name == "key2"), end[name]
            expect(new not in olds, f"{words} changes nothing")
            for n, call in enumerate(calls):
                # the states are able to show it: each sync that is left out leaves a wrong one
                if call.name == "fsync":
                    lacking = disk.cuts(b.folder, begin, calls[:n] + calls[n + 1:])[1]
                    expect(wrong_states(lacking, name, olds, new), f"{words}: no state shows that a sync is missing")
            expect(not wrong_states(states, name, olds, new), f"{words}: a cut leaves neither the old file nor the new one")
            views = {True: [view(end)], False: [view(end), view(begin)] + [view({**begin, name: b""})] * (name == "key2")}
            for state, answered in states.items():
                expect(view(dict(state)) in views[answered], f"{words}: after a power cut the tool finds another store: {sorted(dict(state))}")
                for lock in cut.folder.glob("*.lock"):
                    lock.unlink()
                if dict(state).get(name) == b"":
                    (cut.folder / name).unlink()
                again, told = (words, out) if dict(state).get(name) in olds else (["erase", "store", ident(2)], "1\n")
                expect(cut.answer(*again) == told, f"{words}: after a power cut: the next change")
                met[answered] = met.get(answered, 0) + 1
            unsynced(words, out, calls, lambda files: view(files) in views[True])
    (b.folder / "sub").mkdir()
    for word, name in (("sub/store", "sub/store"), (b.folder / "store", "store")):
        b.lay({**begin, name: begin["store"]})
        ordered(["erase", word, ident(1)], name, answering)
    print(f"  power cut: {met[False]} states before an answer, each the old store or the new one, {met[True]} after it, each the new one")


def interrupted(b, kills):
    """Runs ended by kill -9 after a random time: what was answered is there, once."""
    r = random.Random(7)
    began = time.monotonic()
    for n in range(5):
        b.answer("insert", "store", "key", "hue", "red", 0, ident(10 ** 6 + n))
    usual = (time.monotonic() - began) / 5
    answered, unanswered = [ident(10 ** 6 + n) for n in range(5)], []
    ended = locks = halves = compactions = checked = lost = twice = 0
    left = b.folder / "store.lock"
    for n in range(kills):
        if 300 <= n and n % 25 == 0 and 60 < time.monotonic() - began:
            kills = n
            break
        compacting, ordering = n % 10 == 9, n % 10 == 4
        new = ident(n)
        words = ["compact", "store", "key"] if compacting else ["order", "store"] if ordering else ["insert", "store", "key", "hue", "red", n % 2, new]
        run = b.start(*words)
        time.sleep(r.uniform(0, 1.2 * usual))
        run.kill()
        out, err = run.communicate()
        expect(not out.startswith(UNDONE), f"interrupted: {out!r} {err!r}")
        ended += run.returncode != 0
        compactions += compacting
        if not compacting and not ordering:
            (answered if out.endswith("\n") else unanswered).append(new)
        halves += (b.folder / "store.new").exists()
        if left.exists():
            locks += 1
            line = left.read_text()
            expect(line in ("", f"{run.pid} {os.uname().nodename}\n"), f"interrupted: process {run.pid} left the lock {line!r}")
            if line and locks % 25 == 0:
                said = b.run("erase", "store", ident(0))[1]
                expect(said.startswith(f"process {run.pid} was stopped while it was changing this store"), f"interrupted: {line!r}: {said!r}")
            left.unlink()
        if n % 25 == 24 or n == kills - 1:
            found, entries = b.found(), b.entries()
            checked += len(answered)
            lost += len(set(answered) - set(found))
            twice += len(entries) - len(set(entries))
            expect(set(entries) == set(found), "interrupted: the find gives other ids than have entries")
            expect(b.in_form(), "interrupted: the rows are not in byte order")
            expect(lost == 0 and twice == 0, f"interrupted: {lost} ids are lost, {twice} are there twice")
            expect(set(found) <= set(answered) | set(unanswered), "interrupted: an id that was never given")
    b.answer("compact", "store", "key")
    expect(b.found() == b.model_finds(), "interrupted: the model finds something else")
    late = len(set(b.found()) & set(unanswered))
    expect(ended and checked and unanswered, f"interrupted: {ended} runs ended by force, {checked} ids checked")
    print(f"  points interrupted {ended} of {kills} runs ({compactions} of them compactions): {locks} locks and {halves} unfinished files left")
    print(f"  ids answered {len(answered)}, ids checked {checked}, lost {lost}, twice {twice}; inserts ended before their answer {len(unanswered)}, {late} of them made")


def main():
    options = argparse.ArgumentParser()
    options.add_argument("--kills", type=int, default=1000)
    options.add_argument("--only")
    given = options.parse_args()
    kills = given.kills
    global shim
    if not BUILT.exists():
        sys.exit("tests/tool.py: there is no target/bin/mazhkuri: run `tools/build program` first")
    tests = [("the worked list", worked_list, [1, 4, 4, 4, 4]), ("ids with several entries", each_once, [1, 150, 20, 20, 150]), ("finds by several fields", several_fields, [1, 20, 12, 12, 12]), ("counts with rows", with_rows, [1, 64, 24, 64, 64]), ("rows in byte order", in_order, [1, 8, 8, 8, 8]), ("a check", checked, [1, 12, 8, 8, 12]), ("bad words", bad_words, [1, 4, 4, 4, 4]), ("office and server", halves, [1, 8, 8, 8, 8]), ("files that are no store", no_stores, [1, 4, 4, 4, 4]),
             ("stores of version 1", old_stores, [1, 4, 4, 4, 4]),
             ("refusals from the state", states, [0, 8, 4, 2, 8]), ("the largest store", small_stack, [15, 4096, 4096, 4096, 4096]),
             ("writes that fail", lambda b: (b.answer("insert", "store", "key", "hue", "red", 0, ident(1)), no_room(b)), [1, 8, 8, 8, 8]),
             ("links", links, [1, 4, 4, 4, 4]), ("odd names", odd_names, [1, 4, 4, 4, 4]), ("modes", modes, [1, 64, 64, 64, 64]), ("lock", lock, [1, 4, 4, 4, 4]), ("tools at once", at_once, [1, 200, 200, 200, 200]),
             ("every point", every_point, [1, 16, 16, 16, 16]), ("power cut", power_cut, [1, 16, 16, 16, 16]),
             ("kill -9", lambda b: interrupted(b, kills), [1, 4096, 512, 512, 4096])]
    with tempfile.TemporaryDirectory() as beside:
        shim = compiled(beside) if shutil.which("cc") and shutil.which("nm") else None
        chosen = [t for t in tests if given.only in (None, t[0])]
        expect(chosen, f"there is no test {given.only}")
        for name, test, sizes in chosen:
            with tempfile.TemporaryDirectory() as folder:
                before, began = checks, time.monotonic()
                test(Bench(folder, sizes))
                print(f"tests/tool.py: {name}: {checks - before} checks passed in {time.monotonic() - began:.1f} s", flush=True)


main()
