"""The files of a program under the gate that a script derives: what it reads and the lines to expect.
vectors.py, model/scenario.py and model/tool.py end with `settle`.
"""
import sys


def settle(script, usage, program, derived, what):
    """Writes the files (name in the crate: bytes) with --write, else compares them with what was
    derived; the exit status."""
    if sys.argv[1:] == ["--write"]:
        for name, content in derived.items():
            (program / name).write_bytes(content)
        print("written: %s, %d bytes" % (what, sum(map(len, derived.values()))))
        return 0
    if sys.argv[1:]:
        print(usage)
        return 2
    for name, content in derived.items():
        path = program / name
        if not path.is_file() or path.read_bytes() != content:
            print("%s: %s/%s differs from what is derived" % (script, program.name, name))
            return 1
    print("crates/%s: %s are those derived" % (program.name, what))
    return 0
