"""The files of the program crates/mazhkuri under the gate: a find on the store that document 01's
worked list leaves after G6, E erased and D inserted into the other share too [02:W1.1], with what the
model finds there, and never from our own program.

  tool.py            compares args, data/ and stdout with what is derived here
  tool.py --write    writes them
"""
import pathlib
import sys

import examples
import scheme
from calls import Compact, Done, Erase, compared
from examples import HUE, KEY, id_of
from primitives import Real

TESTS = pathlib.Path(__file__).resolve().parent.parent
sys.path.append(str(TESTS))
from derived import settle  # noqa: E402, stands one folder up


def main():
    model = scheme.Scheme(Real)
    store = bytearray(scheme.length_of(4, 4, 4, 4))
    model.make(store, 1, 4, 4, 4, 4)
    for name, call, wanted in examples.worked():
        if name > "G6":
            break
        assert compared(call, model.call(store, call)[0]) == wanted[0], name
    for call, wanted in ((Erase(id_of("E")), (1,)), (Compact(KEY, bytes(24)), (1, 2)),
                         (examples.insert(HUE, 1, "D"), (2,))):
        assert model.call(store, call)[0] == Done(wanted), call
    ids = bytearray(16 * 4)
    n, = model.find(store, model.find_token(KEY, *HUE), ids).values
    words = ["find", "store", "key", *(word.decode() for word in HUE)]
    lines = [ids[16 * i:16 * i + 16].hex() for i in range(n)]
    derived = {"args": "\n".join(words + [""]).encode(), "data/store": bytes(store), "data/key": KEY,
               "stdout": "\n".join(lines + [""]).encode()}
    return settle("tool.py", __doc__, TESTS.parent / "crates" / "mazhkuri", derived, "args, data and lines")


if __name__ == "__main__":
    sys.exit(main())
