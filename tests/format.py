"""The worked example of docs/FORMAT.md: the document, the model and the library give the same bytes.

  format.py LIBRARY           compares
  format.py LIBRARY --print   prints the example's lines from the model
"""
import pathlib
import re
import sys

import archive
import scheme
from calls import Done

DOCUMENT = archive.HERE.parent / "docs" / "FORMAT.md"

KEY = bytes(range(32))
NAME, VALUE, P, U = b"hue", b"red", 1, 0
TOKEN_NONCE = bytes(range(0x40, 0x4C))
ID = bytes(range(0x50, 0x60))
NONCES = bytes(range(0x60, 0x84))
ANCHOR_NONCE = bytes(range(0x90, 0x9C))
PARTS = {"insert token": (1, 32, 32, 32, 12, 32, 32), "find token": (32, 32, 32), "nonces": (12, 12, 12),
         "M row": (1, 32, 12, 16), "V row": (1, 16, 32), "C row": (1, 32, 12, 16),
         "S row": (1, 12, 32), "R row": (1, 16, 12, 32), "C row, compacted": (1, 32, 12, 16)}


def by_model():
    """The lines of the example, from the model."""
    model = scheme.Scheme(archive.Other)
    token = model.insert_token(KEY, NAME, VALUE, P, U, TOKEN_NONCE)
    compaction = model.compact_token(KEY)
    store = bytearray(scheme.length_of(1, 1, 1, 1))
    assert model.make(store, P, 1, 1, 1, 1) == Done(())
    lines = {"key": KEY, "label": model.label(NAME, VALUE), "insert token": token,
             "find token": model.find_token(KEY, NAME, VALUE),
             "count token": model.count_token(KEY, NAME, VALUE), "compaction token": compaction,
             "mark token": model.mark_token(KEY, NAME, VALUE), "header": bytes(store[:scheme.HEADER]), "id": ID,
             "nonces": NONCES}
    assert model.insert(store, token, NONCES, ID) == Done((1,))
    for name, table in scheme.tables(store).items():
        lines[name + " row"] = scheme.row(store, table, 0)
    inserted = bytes(store)
    assert model.compact(store, compaction, ANCHOR_NONCE) == Done((1, 1))
    lines["anchor nonce"] = ANCHOR_NONCE
    lines["C row, compacted"] = scheme.row(store, scheme.tables(store)["C"], 0)
    return lines, inserted, bytes(store)


def by_library(library, lines, inserted, compacted):
    """The library's bytes are the model's."""
    field = (KEY, NAME, VALUE)
    same = archive.same
    same("insert token", library.insert_token(*field, P, U, TOKEN_NONCE, bytes(173)),
         (173, lines["insert token"]))
    same("find token", library.find_token(*field, bytes(96)), (96, lines["find token"]))
    same("count token", library.count_token(*field, bytes(32)), (32, lines["count token"]))
    same("compaction token", library.compaction_token(KEY, bytes(32)), (32, lines["compaction token"]))
    same("mark token", library.mark_token(*field, bytes(32)), (32, lines["mark token"]))
    # A part of a joint find is the find token, then the mark token [02:W4.18].
    part = lines["find token"] + lines["mark token"]
    same("part token", library.part_token(*field, bytes(128)), (128, part))
    store = library.make(P, 1, 1, 1, 1, b"\1" * 287)
    same("make", store, (0, lines["header"] + bytes(277)))
    store = library.insert(store[1], ID, NONCES, lines["insert token"])
    same("insert", store, (1, inserted))
    same("find", library.find(store[1], lines["find token"], bytes(16)), (1, ID))
    same("joint find", library.joint_find(store[1], part * 2, bytes(16)), (1, ID))
    for id, says in ((ID, 1), (bytes(16), 0)):
        same("test", library.test(store[1], id, lines["mark token"])[0], says)
    # One used row of C, which each lookup looks at: anchor 1 and counter 1 in both shares, c = 1 ends each kind [02:W3.7].
    same("count", archive.counted(library, store[1], lines["count token"]), (1, 4))
    same("compaction", library.compact(store[1], ANCHOR_NONCE, lines["compaction token"]),
         (2**32 + 1, compacted))
    # A table of one row is in form whatever the row, and an order keeps it [02:W2.6 W2.8].
    same("order", library.order(inserted), (5, inserted))
    # Its rows go together [check:10 check:14].
    same("check", archive.checked(library, inserted), (0, (0,) * 7))
    same("order after the compaction", library.order(compacted), (4, compacted))
    for name, table in scheme.tables(inserted).items():
        left = bytearray(compacted if name == "S" else store_without(inserted, table))
        left[table.start + table.width - 1] = 7
        same("bytes left in a free row of " + name, archive.counted(library, bytes(left), lines["count token"]), (-20, None))
        cured = bytearray(left)
        cured[table.start + table.width - 1] = 0
        same("order of it", library.order(bytes(left)), (4, bytes(cured)))


def store_without(store, table):
    """The store with the table's one row freed."""
    store = bytearray(store)
    store[table.start:table.start + table.width] = bytes(table.width)
    return store


def printed(lines):
    result = []
    for name, content in lines.items():
        at = 0
        for i, width in enumerate(PARTS.get(name, (len(content),))):
            result.append("    %-18s%s" % (name if i == 0 else "", content[at:at + width].hex()))
            at += width
        assert at == len(content)
    return result


def in_document():
    """The example's lines: a name with its first part, and further parts below it."""
    lines, name = {}, None
    for line in DOCUMENT.read_text().split("\n"):
        found = re.fullmatch(r"    (\S.*?|) {2,}([0-9a-f]+)", line)
        if not found:
            name = None
        elif found[1]:
            name = found[1]
            lines[name] = bytes.fromhex(found[2])
        elif name:
            lines[name] += bytes.fromhex(found[2])
    return lines


def main():
    lines, inserted, compacted = by_model()
    if sys.argv[2:] == ["--print"]:
        print("\n".join(printed(lines)))
        return 0
    try:
        by_library(archive.Library(pathlib.Path(sys.argv[1]).resolve()), lines, inserted, compacted)
    except archive.Difference as difference:
        print("DIFFERENCE in %s" % difference)
        return 1
    document = in_document()
    for name, content in lines.items():
        if document.get(name) != content:
            print("docs/FORMAT.md: %s is %s, the document has %s" % (name, content.hex(), document.get(name)))
            return 1
    print("docs/FORMAT.md: its %d byte strings are those of model and library" % len(lines))
    return 0


if __name__ == "__main__":
    sys.exit(main())
