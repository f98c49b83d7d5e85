"""A session of stores that is recorded once, and the numbers and reports of what was tried."""
from bench import NAME, Wrong
from disk import Disk
from labels import commands, lines_of


class Tried:
    """The numbers of what was tried, and the reports."""

    def __init__(self):
        self.stops = self.failures = self.holds = self.starts = 0
        self.wrong = []

    def add(self, other):
        self.stops += other.stops
        self.failures += other.failures
        self.holds += other.holds
        self.starts += other.starts
        self.wrong += other.wrong

    def trying(self, words):
        return Trying(self, words)


class Trying:
    """One thing that is tried. If it is wrong, it is reported, and the next is tried."""

    def __init__(self, tried, words):
        self.tried, self.words = tried, words

    def __enter__(self):
        pass

    def __exit__(self, kind, wrong, trace):
        if kind is Wrong:
            self.tried.wrong.append(f"{self.words}: {wrong}")
        return kind is Wrong


class Session:
    """Stores that are given to one start, in a folder where these files are safe. `then` is
    stored after it, and is not disturbed."""

    def __init__(self, title, files, labels, stores, then=()):
        self.title, self.files, self.stores, self.then = title, files, stores, list(then)
        self.labels, self.lines, self.writes = [labels], [], []  # after each store; of each store
        for store in stores:
            labels = labels.copy()
            writes, line = labels.store(*store)
            self.labels.append(labels)
            self.writes.append(writes)
            self.lines.append(line)

    def record(self, bench):
        bench.put(self.files)
        ran, self.calls = bench.run(commands(self.stores))
        bench.expect(ran, 0, self.lines)
        bench.same(Disk(self.files, self.calls))
        self.said = ran.said
        bench.put(self.files)
        _, start = bench.run([])
        while start and start[-1].kind == "close":  # what a bench closes at its end
            start.pop()
        self.start = len(start)  # the calls before the first store
        return self

    def answered(self, k):
        """The lines that were answered after k calls, before the next."""
        return lines_of(self.said[: self.calls[k].said] if k < len(self.calls) else self.said)

    def expected(self, files, n):
        """The labels that must be in the files when n stores were answered, and the stores that
        are to come. The store that was hit is there if the last write of its list landed."""
        over = 0
        if n < len(self.stores) and self.writes[n]:
            place, length = self.writes[n][-1]
            after = self.labels[n + 1].image()
            over = files.get(NAME, b"")[place : place + length] == after[place : place + length]
        return self.labels[n + over], self.stores[n + over :] + self.then

    def words(self, k):
        """What call k is, from 1."""
        call = self.calls[k - 1]
        about = " ".join(word if len(word) < 40 else f"({len(word) // 2} bytes)"
                         for word in call.about)
        return f"call {k} ({call.kind} {about})"
