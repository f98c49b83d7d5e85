"""What a power cut can leave of the files in one folder, worked out from the log of cut_shim.c.

What is modelled
- A program reads what was written, flushed or not (`cached`).
- A flush of a file makes its bytes and its length safe. A name that was created, renamed or
  removed is safe only after a flush of the FOLDER: a flush of the file does not make its name
  safe, and a flush of the folder does not make the file's bytes safe.
- At a cut any set of the changes that are not safe has landed. A write is split where a sector of
  512 bytes ends, and each piece lands whole or not at all. A write to spare bytes of an image (at
  or after U by the head that is in the file) lands byte by byte: any set of its bytes. A file that
  grew has the old length, or the new one with zeros where nothing landed.
- A flush that fails leaves any set of its changes on the disk and gives up the others: they stay
  in the cache, a later flush says that all is well, and a cut loses them.
- A program that is killed, or stops, leaves the cache as it is.

What is not modelled: sectors that become unreadable, bytes that change though nobody wrote them,
a cache that drops a page whose flush failed and reads the old one again, folders in folders."""
import itertools
import os
import random
from collections import namedtuple

from labels import used

SECTOR = 512
EIO = 5
OPEN, GIVEN_UP, SAFE = "open", "given up", "safe"

Call = namedtuple("Call", "process number kind said result done about")


def calls_of(log):
    """The lines of a log, see note() in cut_shim.c."""
    calls = []
    for line in log.splitlines():
        process, number, kind, said, result, done, *about = line.split(" ")
        calls.append(Call(int(process), int(number), kind, int(said), int(result), done == "1",
                          about))
    return calls


class Change:
    """One change that a cut may lose, with the parts of it that land by themselves. Each part is a
    pair: where its bytes begin and where they end in `data`."""

    def __init__(self, at, data, parts):
        self.at, self.data, self.parts, self.state = at, data, parts, OPEN


class Kept:
    """Something that is changed in the cache and later flushed."""

    def __init__(self):
        self.changes = []  # in order; the first is not safe

    def flush(self, well):
        for change in self.changes:
            if change.state is OPEN:
                change.state = SAFE if well else GIVEN_UP
        while self.changes and self.changes[0].state is SAFE:
            change = self.changes.pop(0)
            self.safe = self.lay(self.safe, change, change.parts)

    def unsafe(self):
        return [change for change in self.changes if change.state is not SAFE]

    def after_cut(self, landed):
        """What a cut leaves. `landed` has the parts that landed of the changes that are not
        safe."""
        left = self.safe.copy()
        for change in self.changes:
            parts = change.parts if change.state is SAFE else landed.get(change, ())
            left = self.lay(left, change, parts)
        return left


class File(Kept):
    """The bytes of a file and its length, whatever its name."""

    def __init__(self, content=b""):
        super().__init__()
        self.cached, self.safe = bytearray(content), bytearray(content)

    def write(self, at, data):
        end = at + len(data)
        if end > len(self.cached):
            self.set_length(end)
        if self.cached and at >= used(self.cached) > 0:
            self.change(Change(at, data, [(i, i + 1) for i in range(len(data))]))
            return
        while at < end:
            length = min(SECTOR - at % SECTOR, end - at)
            self.change(Change(at, data[:length], [(0, length)]))
            at, data = at + length, data[length:]

    def set_length(self, length):
        if length != len(self.cached):
            self.change(Change(length, None, [(0, 0)]))

    def change(self, change):
        self.changes.append(change)
        self.cached = self.lay(self.cached, change, change.parts)

    @staticmethod
    def lay(content, change, parts):
        if change.data is None and parts:
            return content[: change.at] + bytes(max(0, change.at - len(content)))
        for begin, end in [(0, len(change.data))] if parts is change.parts else parts:
            piece = change.data[begin : min(end, len(content) - change.at)]
            content[change.at + begin : change.at + begin + len(piece)] = piece
        return content


class Folder(Kept):
    """The names of the files. A change has the names that it removes, and those that it enters
    with their files."""

    def __init__(self, names):
        super().__init__()
        self.cached, self.safe = dict(names), dict(names)

    def change(self, removed, entered):
        change = Change(removed, entered, [None])
        self.changes.append(change)
        self.cached = self.lay(self.cached, change, change.parts)

    @staticmethod
    def lay(names, change, parts):
        if not parts:
            return names
        return {**{n: f for n, f in names.items() if n not in change.at}, **change.data}


class Disk:
    """The folder as the calls left it. At the beginning all of `files` is safe."""

    def __init__(self, files, calls=()):
        self.folder = Folder({name: File(content) for name, content in files.items()})
        self.opened = {}  # what a descriptor of a process is about
        self.all = list(self.folder.cached.values())
        for call in calls:
            getattr(self, call.kind)(call, *call.about)

    def open(self, call, flags, name):
        if not call.done:
            return
        if name == ".":
            self.opened[call.process, call.result] = self.folder
            return
        file = self.folder.cached.get(name)
        if file is None:
            file = File()
            self.all.append(file)
            self.folder.change([], {name: file})
        elif int(flags) & os.O_TRUNC:
            file.set_length(0)
        self.opened[call.process, call.result] = file

    def write(self, call, fd, at, data):
        if call.done:
            self.opened[call.process, int(fd)].write(int(at), bytes.fromhex(data))

    def truncate(self, call, fd, length):
        if call.done:
            self.opened[call.process, int(fd)].set_length(int(length))

    def flush(self, call, fd):
        if call.done or call.result == -EIO:
            self.opened[call.process, int(fd)].flush(call.done)

    def rename(self, call, old, new):
        if call.done:
            self.folder.change([old], {new: self.folder.cached[old]})

    def unlink(self, call, name):
        if call.done:
            self.folder.change([name], {})

    def close(self, call, fd):
        self.opened.pop((call.process, int(fd)), None)

    def read(self, call, fd):
        pass

    lock = read

    def view(self):
        """The files as a program sees them."""
        return {name: bytes(file.cached) for name, file in self.folder.cached.items()}

    def cut(self, names=(), landed=None):
        """The files that a cut leaves, given the changes of names and the parts that landed."""
        left = self.folder.after_cut({change: change.parts for change in names})
        return {name: bytes(file.after_cut(landed or {})) for name, file in left.items()}

    def cuts(self):
        """The cuts that are tried here: pairs of words and the files that the cut leaves, each
        once. For each set of names that landed, sets of parts of the files."""
        seen = set()
        names = self.folder.unsafe()
        changes = [change for file in self.all for change in file.unsafe()]
        for some in subsets(names):
            every = len(some) in (0, len(names))
            for words, parts in selections(changes, every):
                landed = {}
                for change, part in parts:
                    landed.setdefault(change, []).append(part)
                files = self.cut(some, landed)
                key = tuple(sorted(files.items()))
                if key not in seen:
                    seen.add(key)
                    yield f"{len(some)} of {len(names)} names and {words} landed", files


def subsets(names):
    """Every set of at most 3 names that is a part of the given; of more, the longest fronts."""
    if len(names) > 3:
        return [names[:i] for i in range(len(names) + 1)]
    return [list(some) for n in range(len(names) + 1)
            for some in itertools.combinations(names, n)]


def selections(changes, every):
    """Sets of parts that landed, each with words. `every` false: nothing and all alone."""
    parts = [(change, part) for change in changes for part in change.parts]
    n, half = len(changes), len(parts) // 2
    yield "nothing written", []
    if parts:
        yield f"all of {n} pieces", parts
    if not every or len(parts) < 2:
        return
    yield f"the front half of {n} pieces", parts[:half]
    yield f"the back half of {n} pieces", parts[half:]
    for i in range(n) if n <= 4 else (0, n - 2, n - 1):
        yield f"piece {i + 1} alone of {n}", [p for p in parts if p[0] is changes[i]]
        yield f"all but piece {i + 1} of {n}", [p for p in parts if p[0] is not changes[i]]
    for seed in (1, 2):
        lot = random.Random(seed)
        yield f"a random part of {n} pieces ({seed})", [p for p in parts if lot.random() < 0.5]
