"""Runs a bench in a folder with cut_shim.c, and judges one run: how it ended, what it answered,
and what the file then holds."""
import os
import re
import shutil
import signal
import subprocess
import time
from collections import namedtuple

from disk import Disk, calls_of
from labels import ANOTHER, ASKING, commands, lines_of, told

NAME = "labels.trieff"
STOPPED, REFUSED = 77, 1  # exit status: stopped by the shim, or by the bench itself

Ran = namedtuple("Ran", "status said errors")  # `said` is the text of the answers


class Wrong(Exception):
    """The bench did not keep what it promises."""


def G(image):
    return int.from_bytes(image[:4], "big")


class Text:
    """A file in memory that a bench writes to."""

    def __init__(self):
        self.fd = os.memfd_create("text")

    def text(self):
        return os.pread(self.fd, os.fstat(self.fd).st_size, 0).decode("ascii", "replace")

    def __del__(self):
        os.close(self.fd)


class Started:
    """A bench that was started. It is given its lines in a pipe. Its answers go to a file in
    memory, so the shim can see how much was answered before each call."""

    def __init__(self, bench, at=0, how="", shim=True):
        self.said, self.errors = Text(), Text()
        env = {"PATH": os.environ.get("PATH", "")}
        if shim:
            env.update(LD_PRELOAD=bench.shim, CUT_FOLDER=bench.folder, CUT_LOG=str(bench.log.fd))
        if at:
            env.update(CUT_AT=str(at), CUT_HOW=how)
        self.process = subprocess.Popen(
            [bench.bench, os.path.join(bench.folder, NAME)], env=env, stdin=subprocess.PIPE,
            stdout=self.said.fd, stderr=self.errors.fd, pass_fds=[bench.log.fd], bufsize=0)

    def tell(self, lines):
        try:
            self.process.stdin.write("".join(line + "\n" for line in lines).encode())
        except BrokenPipeError:
            pass  # it has ended, and its exit status says why

    def is_held(self):
        """Waits until it is held by the shim, or ends."""
        _, status = os.waitpid(self.process.pid, os.WUNTRACED)
        if os.WIFSTOPPED(status):
            return True
        self.process.returncode = os.waitstatus_to_exitcode(status)
        return False

    def let_go(self):
        os.kill(self.process.pid, signal.SIGCONT)

    def has_answered(self):
        """Waits until it has answered a line, or ends."""
        while self.process.poll() is None and "\n" not in self.said.text():
            time.sleep(0.001)
        return "\n" in self.said.text()

    def end(self):
        """Gives it no more lines, and waits for its end."""
        self.process.stdin.close()
        status = self.process.wait()
        return Ran(status, self.said.text(), self.errors.text())


class Bench:
    """The bench with its folder, what runs in it, and the number of its starts."""

    def __init__(self, bench, shim, folder):
        self.bench, self.shim = os.path.abspath(bench), os.path.abspath(shim)
        shutil.rmtree(folder, ignore_errors=True)
        os.makedirs(folder)
        self.folder = os.path.realpath(folder)
        self.log, self.started, self.starts = Text(), [], 0
        self.judged = {}  # what goes_on() said

    def put(self, files):
        """Makes the folder hold these files and no others. What still runs is ended, and a new log
        begins."""
        for started in self.started:
            started.process.kill()
            started.process.wait()
        self.started, self.log = [], Text()
        for name in os.listdir(self.folder):
            os.remove(os.path.join(self.folder, name))
        for name, content in files.items():
            with open(os.path.join(self.folder, name), "wb") as f:
                f.write(content)

    def held(self):
        files = {}
        for name in os.listdir(self.folder):
            with open(os.path.join(self.folder, name), "rb") as f:
                files[name] = f.read()
        return files

    def begin(self, lines, **disturbed):
        """A start that is given these lines."""
        self.starts += 1
        started = Started(self, **disturbed)
        self.started.append(started)
        started.tell(lines)
        return started

    def calls(self):
        """The calls since this was asked for the last time."""
        calls = calls_of(self.log.text())
        self.log = Text()
        return calls

    def run(self, lines, **disturbed):
        """A start that is given these lines and runs to its end, and its calls."""
        ran = self.begin(lines, **disturbed).end()
        return ran, self.calls()

    def same(self, disk):
        """Compares the folder with what the log says that it holds."""
        if self.held() != disk.view():
            raise Wrong("the folder is changed by a call that the shim does not see")

    def expect(self, ran, status, lines, mended=None):
        """Judges how a run ended and what it answered."""
        got = lines_of(ran.said)
        if ran.status != status:
            raise Wrong(f"ended with {ran.status} instead of {status}: {ran.errors.strip()}")
        if got != lines:
            at = next((i for i, (a, b) in enumerate(zip(got, lines)) if a != b),
                      min(len(got), len(lines)))
            raise Wrong(f"line {at + 1} is {got[at : at + 1]} instead of {lines[at : at + 1]}")
        if status == REFUSED and not re.search(r"\w+ \w+", ran.errors):
            raise Wrong("ended with 1 and without a sentence")
        if mended is not None and mended != ("mended" in ran.errors):
            raise Wrong(f"mended: {not mended}, instead of {mended}")

    def holds(self, files, labels, words):
        """The file must hold these labels: their bytes up to U."""
        image, held = labels.image(), files.get(NAME)
        if held is None:
            raise Wrong(f"{words}: there is no file")
        if held[: len(image)] != image:
            at = next(i for i in range(len(image)) if held[i : i + 1] != image[i : i + 1])
            raise Wrong(f"{words}: byte {at} of the file is {held[at : at + 1].hex()} "
                        f"instead of {image[at : at + 1].hex()}")

    def goes_on(self, files, labels, rest):
        """A start in a folder that holds these files, all of them safe. All answers are as the
        labels say, and the rest of the session can be stored. Then the file holds it, also if the
        power is cut there. The same start is judged once, and then remembered."""
        key = hash((tuple(sorted(files.items())), tuple(rest), tuple(labels.nodes),
                    tuple(labels.records.items())))
        if key not in self.judged:
            try:
                self.judged[key] = self.finished(files, labels, rest)
            except Wrong as wrong:
                self.judged[key] = str(wrong)
        if self.judged[key]:
            raise Wrong(self.judged[key])

    def finished(self, files, labels, rest):
        self.put(files)
        lines, end = told(labels, rest)
        ran, calls = self.run(ASKING + commands(rest) + ASKING)
        mended = G(files.get(NAME, b"")) > len(labels.nodes) - 1
        self.expect(ran, 0, labels.answers() + lines + end.answers(), mended)
        disk = Disk(files, calls)
        self.same(disk)
        self.holds(disk.view(), end, "at the end of the session")
        self.holds(disk.cut(), end, "after a cut at the end of the session")

    def answers_again(self, files, calls, labels, expected=None):
        """A start after a kill: it reads what is in the cache, flushed or not, and stores one more
        label. What it answers must still be true after a cut that comes then, before this store
        or after it. `calls` are those since `files` were safe. If `expected` is given, the start
        is also cut at each of its calls; it gives what the files that are left must hold."""
        ran, more = self.run(ASKING + commands([ANOTHER]) + ASKING)
        lines, end = told(labels, [ANOTHER])
        self.expect(ran, 0, labels.answers() + lines + end.answers())
        self.same(Disk(files, calls + more))
        start = sum(call.said == 0 for call in more)
        for k, held, then in ((start, labels, ""), (len(more), end, " and stores")):
            for words, left in Disk(files, calls + more[:k]).cuts():
                with also(f"then a start that answers{then} and a cut, {words}"):
                    self.goes_on(left, held, [])
        for k in range(start) if expected else ():
            for words, left in Disk(files, calls + more[:k]).cuts():
                with also(f"then a start and a cut after its call {k}, {words}"):
                    self.goes_on(left, *expected(left))


class also:
    """Adds words to what is wrong."""

    def __init__(self, words):
        self.words = words

    def __enter__(self):
        pass

    def __exit__(self, kind, wrong, trace):
        if kind is Wrong:
            raise Wrong(f"{self.words}: {wrong}") from None
