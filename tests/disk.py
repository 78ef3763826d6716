"""What a power cut may leave of a folder, from the calls of the system that a program made (tests/calls.c tells them).

A file's bytes are safe once the file was synced after they were written. A name is safe once its folder was synced
after the name was made, changed or removed. Until then a write may be lost, be there in part, or be there in length
with zeros for bytes; and of the changes of names any may be lost, each by itself.
"""
import itertools
import os
from collections import namedtuple

Call = namedtuple("Call", "name told words content")


def calls_in(log):
    """The calls that a log tells of, in order. The first line says that tests/calls.c was loaded."""
    result = []
    with open(log, "rb") as f:
        while line := f.readline():
            name, told, *words = line.decode().split()
            result.append(Call(name, int(told), words, f.read(max(int(told), 0)) if name == "write" else b""))
    return result


def written(content, writes):
    """A file's bytes after some writes, each at its place."""
    for at, part in writes:
        content = content[:at].ljust(at, b"\0") + part + content[at + len(part):]
    return content


class File:
    def __init__(self, content=b""):
        self.safe, self.writes = content, []

    def content(self):
        return written(self.safe, self.writes)

    def left(self):
        """The contents that a cut may leave."""
        found = {self.safe}
        for n, (at, part) in enumerate(self.writes):
            before, half = written(self.safe, self.writes[:n]), len(part) // 2
            found |= {written(before, [(at, p)]) for p in (part, part[:half], bytes(half) + part[half:], bytes(len(part)))}
        return found


def changed(names, change):
    return {name: file for name, file in {**names, **change}.items() if file}


class Disk:
    """The files of a folder, safe at first, under the calls of a program that runs in it. `steps` has what it did to
    them, in order. Names are those from the folder on."""

    def __init__(self, folder, files):
        self.folder = folder
        self.names = {name: File(content) for name, content in files.items()}
        self.safe = dict(self.names)
        self.changes = []  # of names, not yet safe: the folder, and the names with their files, or None
        self.opened = {}
        self.steps = []

    def named(self, path):
        return os.path.relpath(os.path.join(self.folder, path), self.folder)

    def files(self):
        return {name: file.content() for name, file in self.names.items()}

    def change(self, change):
        folder, = {os.path.dirname(name) or "." for name in change}
        self.changes.append((folder, change))
        self.names = changed(self.names, change)

    def step(self, call):
        act = getattr(self, "on_" + call.name, None)
        if act and call.told >= 0:
            act(call.told, *call.words, *([call.content] if call.content else []))

    def on_open(self, fd, name, flags):
        name, flags = self.named(name), int(flags, 16)
        assert not flags & (os.O_TRUNC | os.O_APPEND)
        if flags & os.O_CREAT and name not in self.names:
            self.change({name: File()})
        self.opened[fd] = [self.names.get(name, name), 0]  # what is no file is a folder

    def on_write(self, n, fd, content=b""):
        if int(fd) == 1:
            self.steps.append(("answer",))
        elif int(fd) != 2:
            file, at = self.opened[int(fd)]
            file.writes.append((at, content))
            self.opened[int(fd)][1] += n
            self.steps.append(("write", file))

    def on_fsync(self, told, fd):
        what = self.opened[int(fd)][0]
        if isinstance(what, File):
            what.safe, what.writes = what.content(), []
            self.steps.append(("sync", what))
            return
        for folder, change in self.changes:
            if folder == what:
                self.safe = changed(self.safe, change)
        self.changes = [c for c in self.changes if c[0] != what]
        self.steps.append(("sync folder", what))

    def on_rename(self, told, name, to):
        name, to = self.named(name), self.named(to)
        self.steps.append(("rename", self.names[name], to))
        self.change({name: None, to: self.names[name]})

    def on_unlink(self, told, name):
        self.change({self.named(name): None})

    def on_close(self, told, fd):
        self.opened.pop(int(fd), None)

    def left(self):
        """What a cut may leave now: for each state the names with their bytes."""
        for kept in itertools.product((False, True), repeat=len(self.changes)):
            names = self.safe
            for (_, change), stays in zip(self.changes, kept):
                names = changed(names, change) if stays else names
            files = list(set(names.values()))
            for contents in itertools.product(*(file.left() for file in files)):
                content = dict(zip(files, contents))
                yield frozenset((name, content[file]) for name, file in names.items())


def cuts(folder, files, calls):
    """The disk after the calls, and every state that a cut before, between or after them may leave, each with whether
    there was an answer by then: one was printed, or the program had ended."""
    disk, states = Disk(folder, files), {}
    for n in range(len(calls) + 1):
        answered = n == len(calls) or ("answer",) in disk.steps
        for state in disk.left():
            states[state] = states.get(state, False) or answered
        if n < len(calls):
            disk.step(calls[n])
    return disk, states
