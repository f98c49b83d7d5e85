#!/usr/bin/env python3
"""Tries whether a bench that keeps its labels in a file keeps what it answered.

cuts.py BENCH SHIM FOLDER [until WORDS]

BENCH is the compiled bench, SHIM the compiled cut_shim.c, FOLDER a folder to work in. After ten
reports no more is tried; with `until`, after a report that holds the words.

A session of stores is recorded once. At each of its calls on files
- the power is cut: disk.py works out what may be left, and the next start is run on it;
- the bench is killed, and the next start must answer from what a cut cannot take away;
- the call fails: the bench must stop with 1 and a sentence, and answer nothing more. It may go on
  after a call that was interrupted, or did only a part and said so.
And two benches are started together: the first is held at each call of its start.

The promise that is judged: every answer stays true. A store that was answered is there after any
cut. The store that was hit is there as a whole or not at all, and it is there exactly if the last
write of its list landed. All other labels answer as before. The session can be finished, and then
the bytes of the file up to U are those of the plain list in labels.py.

The last line gives the numbers of what was tried. The exit status is 1 if anything was wrong.
"""
import itertools
import multiprocessing
import os
import random
import sys

from bench import NAME, REFUSED, STOPPED, Bench, Wrong, also
from disk import Disk
from labels import ANOTHER, ASKING, FIRST, ONE, SESSION, TWO, WIDTH, Labels, commands, told
from session import Session, Tried

WORKERS = 2
MOST_WRONG = 10  # reports, then no more is tried
KINDS = 10  # of folders after a cut in the first start; a right bench leaves fewer
WAYS = {  # how a call of each kind fails
    "open": ("eio", "intr"), "read": ("eio", "short", "intr"),
    "write": ("eio", "full", "part", "short", "intr"), "truncate": ("eio",),
    "flush": ("eio", "intr"), "rename": ("eio", "part"), "unlink": ("eio",),
    "lock": ("busy", "eio", "intr"), "close": (),
}
MADE = [("no file", {}), ("an empty file", {NAME: b""})]  # where a start makes the file
GOES_ON = ("short", "intr")


def may_go_on(call, how):
    """Whether a bench may go on after such a failure."""
    return how in GOES_ON or call.kind == "unlink"


def cut_at(bench, tried, s, k):
    """The power is cut after k calls."""
    n = len(s.answered(k))
    where = f"after {s.words(k)}" if k else "before the first call"
    for words, left in Disk(s.files, s.calls[:k]).cuts():
        tried.stops += 1
        with tried.trying(f"{s.title}, cut {where}, {words}"):
            bench.goes_on(left, *s.expected(left, n))


def kill_at(bench, tried, s, k, deep):
    """The bench is killed before call k. Then a start, and the power is cut after it answered; if
    `deep`, also at each call before that."""
    tried.stops += 1
    with tried.trying(f"{s.title}, killed before {s.words(k)}"):
        lines = s.answered(k - 1)
        bench.put(s.files)
        ran, calls = bench.run(commands(s.stores), at=k, how="stop")
        bench.expect(ran, STOPPED, lines)
        disk = Disk(s.files, calls)
        bench.same(disk)
        labels, _ = s.expected(disk.view(), len(lines))
        bench.answers_again(s.files, calls, labels,
                            (lambda left: s.expected(left, len(lines))) if deep else None)


def after_failure(bench, s, calls, lines):
    """The bench has stopped after a failure, with these lines answered. `calls` are those since
    the session's files were safe. Then a start, or a cut at once."""
    disk = Disk(s.files, calls)
    labels, _ = s.expected(disk.view(), len(lines))
    bench.answers_again(s.files, calls, labels)
    for words, left in disk.cuts():
        with also(f"then a cut, {words}"):
            bench.goes_on(left, *s.expected(left, len(lines)))


def fail_at(bench, tried, s, k, how):
    """Call k fails."""
    tried.failures += 1
    with tried.trying(f"{s.title}, {how} at {s.words(k)}"):
        bench.put(s.files)
        ran, calls = bench.run(commands(s.stores), at=k, how=how)
        disk = Disk(s.files, calls)
        bench.same(disk)
        if ran.status == 0 and may_go_on(s.calls[k - 1], how):
            bench.expect(ran, 0, s.lines)
            bench.holds(disk.view(), s.labels[-1], "at the end")
            bench.holds(disk.cut(), s.labels[-1], "after a cut at the end")
        else:
            bench.expect(ran, REFUSED, s.answered(k - 1))
            after_failure(bench, s, calls, s.answered(k - 1))


def fail_after_kill(bench, tried, s, k):
    """The bench is killed before call k, and each call of the next start fails."""
    before, lines = s.calls[: k - 1], s.answered(k - 1)
    view = Disk(s.files, before).view()
    labels, _ = s.expected(view, len(lines))
    bench.put(view)
    _, start = bench.run(ASKING)
    for j, call in enumerate(start, 1):
        for how in WAYS[call.kind]:
            tried.failures += 1
            with tried.trying(f"{s.title}, killed before {s.words(k)}, then a start, {how} at its "
                              f"call {j} ({call.kind})"):
                bench.put(view)
                ran, calls = bench.run(ASKING, at=j, how=how)
                bench.same(Disk(s.files, before + calls))
                if ran.status == 0 and may_go_on(call, how):
                    bench.expect(ran, 0, labels.answers())
                    for words, left in Disk(s.files, before + calls).cuts():
                        bench.goes_on(left, labels, [])
                else:
                    bench.expect(ran, REFUSED, [])
                    after_failure(bench, s, before + calls, lines)


def at(bench, tried, s, k, ways):
    """Everything that is tried after k calls of a session."""
    cut_at(bench, tried, s, k)
    if k < len(s.calls):
        if "kill" in ways:
            kill_at(bench, tried, s, k + 1, "deep" in ways)
        for how in WAYS[s.calls[k].kind] if "fail" in ways else ():
            fail_at(bench, tried, s, k + 1, how)


def stored_or_refused(bench, ran, labels, stores):
    """A bench that met another one has answered all, or it was refused and answered nothing.
    Returns the labels after it."""
    if ran.status == REFUSED:
        bench.expect(ran, REFUSED, [])
        return labels
    lines, after = told(labels, stores)
    bench.expect(ran, 0, lines + after.answers())
    return after


def kept(bench, files, labels):
    """All of these labels must be there at the next start, and after a cut."""
    calls = bench.calls()
    disk = Disk(files, calls)
    bench.same(disk)
    for words, left in disk.cuts():
        with also(f"then a cut, {words}"):
            bench.goes_on(left, labels, [])
    bench.put(disk.view())
    bench.answers_again(files, calls, labels)


def hold_at(bench, tried, title, files, labels, k, stays):
    """The first bench is held before call k of its start. The second stores and ends or, if it
    stays, it stores, waits until the first has ended, and stores again."""
    tried.holds += 1
    second = "stays" if stays else "ends"
    with tried.trying(f"two benches, {title}, the first held before call {k}, the second "
                      f"{second}"):
        bench.put(files)
        first = bench.begin(commands(ONE) + ASKING, at=k, how="hold")
        if not first.is_held():
            raise Wrong(f"the first does not come to call {k}")
        other = bench.begin(commands(TWO[:1]))
        stays = stays and other.has_answered()
        if stays:
            lines, after = told(labels, TWO[:1])
        else:
            other.tell(commands(TWO[1:]) + ASKING)
            lines, after = [], stored_or_refused(bench, other.end(), labels, TWO)
        first.let_go()
        after = stored_or_refused(bench, first.end(), after, ONE)
        if stays:
            other.tell(commands(TWO[1:]) + ASKING)
            more, after = told(after, TWO[1:])
            bench.expect(other.end(), 0, lines + more + after.answers())
        if after is labels:
            raise Wrong("both were refused")
        kept(bench, files, after)


def while_it_waits(bench, tried, title, files, labels):
    """A second bench that is started while the first waits for a line must be refused."""
    tried.holds += 1
    with tried.trying(f"two benches, {title}, the first waits for a line"):
        bench.put(files)
        first = bench.begin(commands(ONE[:1]))
        first.has_answered()
        bench.expect(bench.begin(commands(TWO) + ASKING).end(), REFUSED, [])
        first.tell(commands(ONE[1:]) + ASKING)
        lines, after = told(labels, ONE)
        bench.expect(first.end(), 0, lines + after.answers())
        kept(bench, files, after)


def the_session(bench, tried):
    """The whole session with no cut, first without the shim, so with real flushes; then with the
    shim, whose log must have the writes that the labels give."""
    lines, end = told(Labels(), SESSION)
    with tried.trying("the session without the shim"):
        bench.put({})
        ran, _ = bench.run(commands(SESSION) + ASKING, shim=False)
        bench.expect(ran, 0, lines + end.answers(), False)
        bench.holds(bench.held(), end, "at the end")
    with tried.trying("the session"):
        s = Session("the session", {}, Labels(), SESSION).record(bench)
        listed = [write for writes in s.writes for write in writes]
        seen = [(int(call.about[1]), len(call.about[2]) // 2) for call in s.calls[s.start :]
                if call.kind == "write"]
        if seen != listed:
            at = next(i for i in range(len(seen) + 1) if seen[i : i + 1] != listed[i : i + 1])
            raise Wrong(f"write {at + 1} is {seen[at : at + 1]} instead of {listed[at : at + 1]}")


def littered(bench):
    """A fresh image whose spare bytes hold random values, some of them good addresses."""
    lot = random.Random(1)
    bench.put({})
    bench.run([])
    image = bench.held().get(NAME, b"")
    return image[: FIRST + WIDTH] + bytes(
        lot.choice((0, 0, 1, 2, lot.randrange(256), 255)) for _ in image[FIRST + WIDTH :])


def before_each_link(s):
    """For each store with new nodes: its number, and the calls before the write of its link."""
    for n, writes in enumerate(s.writes):
        if len(writes) > 1:
            yield n, max((k for k in range(len(s.calls))
                          if s.calls[k].kind == "write" and len(s.answered(k)) == n), default=0)


def started_again(s, stores):
    """Sessions after a cut in the start of a session, one for each kind of folder that is left:
    what the file is, and which other names are there."""
    kinds = {}
    for k in range(s.start + 1):
        for words, left in Disk(s.files, s.calls[:k]).cuts():
            kind = left.get(NAME), tuple(sorted(left))
            kinds.setdefault(kind, Session(f"{s.title}, cut after call {k}, {words}, then a start",
                                           left, Labels(), stores))
    return list(kinds.values())[:KINDS]


def making(jobs, explore):
    """The first start, and the start after a cut or a kill in it."""
    for title, files in MADE:
        s = explore(Session(f"making the file, {title}", files, Labels(), SESSION[3:5],
                            SESSION[:3]), "kill deep fail")
        if s:
            jobs.extend((fail_after_kill, s, k) for k in range(1, s.start + 1))
            for again in started_again(s, [ANOTHER]):
                explore(again, "fail", in_start=True)


def mending(explore, s):
    """A start after a cut between G and the link, and another store after it."""
    for i, (n, k) in enumerate(before_each_link(s)):
        label, record = s.stores[n]
        explore(Session(f"store {label} {record}, cut before its link, then a start that "
                        f"stores {ANOTHER[0]}", Disk(s.files, s.calls[:k]).view(),
                        s.labels[n], [ANOTHER], s.stores[n:]),
                "kill deep fail" if i % 4 == 0 else "")


def jobs_of(bench, tried):
    """The list of what is tried: a function with its values."""
    jobs = []

    def explore(s, ways, in_start=False):
        with tried.trying(s.title):
            s.record(bench)
            jobs.extend((at, s, k, ways) for k in range(len(s.calls) + 1)
                        if not in_start or k <= s.start)
            return s

    def together(title, files):
        with tried.trying(f"two benches, {title}"):
            calls = Session(title, files, Labels(), []).record(bench).calls
            jobs.append((while_it_waits, title, files, Labels()))
            jobs.extend((hold_at, title, files, Labels(), k, stays) for stays in (False, True)
                        for k in range(1, len(calls) + 1))

    image = littered(bench)
    making(jobs, explore)
    for title, files in MADE + [("an image", {NAME: image})]:
        together(title, files)
    s = explore(Session("the session", {NAME: image}, Labels(), SESSION), "kill fail")
    if s:
        mending(explore, s)
        jobs.extend((fail_after_kill, s, k + 1) for k in range(s.start, len(s.calls))
                    if len(s.answered(k)) == 1)
    return jobs


def work(queue, jobs, bench, shim, folder):
    """The work of one process: its jobs, one after the other, in its own folder."""
    bench = Bench(bench, shim, folder)
    for function, *values in jobs:
        tried, starts = Tried(), bench.starts
        try:
            function(bench, tried, *values)
        except Exception as wrong:  # a log that disk.py does not understand
            tried.wrong.append(f"{function.__name__}: {wrong!r}")
        tried.starts = bench.starts - starts
        queue.put(tried)
    queue.put(None)


def each_job(jobs, bench, shim, folder):
    """What was tried in each job. The jobs are shared out among processes."""
    queue = multiprocessing.SimpleQueue()
    workers = [multiprocessing.Process(
        target=work, args=(queue, jobs[i::WORKERS], bench, shim, os.path.join(folder, str(i))))
        for i in range(WORKERS)]
    for worker in workers:
        worker.start()
    try:
        working = WORKERS
        while working:
            tried = queue.get()
            if tried is None:
                working -= 1
            else:
                yield tried
    finally:
        for worker in workers:
            worker.terminate()


def main():
    bench, shim, folder, *more = sys.argv[1:]
    words = more[more.index("until") + 1] if "until" in more else None
    tried, alone = Tried(), Bench(bench, shim, os.path.join(folder, "alone"))
    the_session(alone, tried)
    jobs = jobs_of(alone, tried)
    tried.starts = alone.starts
    if words:  # what is looked for may be anywhere
        random.Random(1).shuffle(jobs)
    shown, over = 0, False
    for done in itertools.chain([Tried()], each_job(jobs, bench, shim, folder)):
        tried.add(done)
        for line in tried.wrong[shown:]:
            print(f"cuts.py: WRONG {line}", flush=True)
            over = over or (words in line if words else len(tried.wrong) >= MOST_WRONG)
        shown = len(tried.wrong)
        if over:
            print("cuts.py: no more were tried")
            break
    print(f"cuts.py: {tried.stops} stops, {tried.failures} failures, {tried.holds} holds in "
          f"{tried.starts} starts tried, {len(tried.wrong)} wrong")
    sys.exit(1 if tried.wrong else 0)


if __name__ == "__main__":
    main()
