"""Stores of version 1, kept as files under tests/data: a fresh one, the one that document 01's worked list leaves, and one
with rows in any place, as before request 2 of document 02. The model of the version before request 4 wrote them, under the
key of examples.py. Every call refuses them by 10 [02:W4.5 W4.6].
"""
import pathlib

import examples
from calls import Refused

FILES = sorted((pathlib.Path(__file__).resolve().parent.parent / "data").glob("version1-*.store"))


def stores():
    """By name, each held to what version 1 says of a header and of the length."""
    result = {path.stem: path.read_bytes() for path in FILES}
    for name, store in result.items():
        m, c, s = (int.from_bytes(store[at:at + 2], "big") for at in (2, 4, 6))
        assert store[0] == 1 and len(store) == 8 + 110 * m + 61 * c + 45 * s, name
    assert len(result) == 3
    return result


def check(model):
    """None, or what was not refused by 10, or changed."""
    for name, content in stores().items():
        store = bytearray(content)
        for call, act in examples.every_call(model, store, store[1]):
            answer = act()
            if answer != Refused(10, ()) or store != content:
                return "%s on %s tells %r" % (call, name, answer)
    return None
