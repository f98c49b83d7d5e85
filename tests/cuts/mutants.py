#!/usr/bin/env python3
"""Plants mistakes in examples/bench_file.c, one at a time. cuts.py must report each of them.

mutants.py SHIM FOLDER [NAME..]

SHIM is the compiled cut_shim.c, FOLDER a folder to work in. With names, only these are tried. A
mistake is a name, words that a report must hold, and replacements: each text must be in the source
exactly once. The exit status is 1 if a mistake does not fit the source or is not reported.
"""
import concurrent.futures
import os
import subprocess
import sys

SOURCE, INCLUDE = "examples/bench_file.c", "include"
LIBRARY = "target/staticlib/libtrieff.a"
AT_ONCE = 2

ANSWER = '''\
    printf("%s = %u: change %d, writes %u\\n", label, (unsigned)record, (int)heard.change,
           (unsigned)heard.length);
'''
WRITE = "        put(image + writes[2 * i], writes[2 * i + 1], writes[2 * i]);\n"
FLUSHED = "i + 3 >= heard.length"  # the writes of a store that are followed by a flush
FOUND = [  # notes whether the start found a file
    ("static int file; ", "static bool found;\nstatic int file; "),
    ("    memcpy(head, image, sizeof head);\n",
     "    found = is.st_size != 0;\n    memcpy(head, image, sizeof head);\n"),
]

MISTAKES = [
    ("no lock", "two benches", [("    lock();\n", "")]),
    ("the lock is taken after the file is read", "two benches",
     [("    lock();\n    load();\n", "    load();\n    lock();\n")]),
    ("the lock is on the file itself", "two benches",
     [('opened(named(".lock"), O_RDWR | O_CREAT)', "opened(name, O_RDWR | O_CREAT)")]),
    ("the file is flushed instead of its folder", "there is no file",
     [("flush(folder, fsync);", "flush(file, fsync);")]),
    ("no flush of the folder at a start that finds the file",
     "after a cut at the end of the session",
     FOUND + [("    flush(folder, fsync);", "    if (!found)\n        flush(folder, fsync);")]),
    ("a start goes on in the file that it read", "then a start that answers and a cut",
     FOUND + [("    save();\n    if (memcmp", '''    if (!found) {
        save();
    } else {
        file = opened(name, O_RDWR);
        if (memcmp(g, image, sizeof g) != 0) {
            put(image, sizeof g, 0);
            flush(file, fdatasync);
        }
    }
    if (memcmp''')]),
    ("a start flushes the file that it read and goes on in it", "instead of ['B04: record 16']",
     FOUND + [("    save();\n    if (memcmp", '''    if (!found) {
        save();
    } else {
        file = opened(name, O_RDWR);
        flush(file, fsync);
        flush(opened(dirname(named("")), O_RDONLY | O_DIRECTORY), fsync);
        if (memcmp(g, image, sizeof g) != 0) {
            put(image, sizeof g, 0);
            flush(file, fdatasync);
        }
    }
    if (memcmp''')]),
    ("the answer comes before the flush", "cut after call",
     [(FLUSHED, FLUSHED + " && i + 1 < heard.length"),
      (ANSWER, ANSWER + "    fflush(stdout);\n    flush(file, fdatasync);\n")]),
    ("a data field is not flushed", "instead of ['B04-117-2: record 2409']",
     [(FLUSHED, "heard.length > 1 && " + FLUSHED)]),
    ("a failed write is ignored", "eio at call",
     [('            disk_failed("pwrite");', "            return;")]),
    ("a failed flush is ignored", "eio at call",
     [('            disk_failed("flush");', "            return;")]),
    ("a failed flush is tried again", "eio at call",
     [("        if (errno != EINTR)\n            disk_failed(\"flush\");",
       "        if (errno != EINTR && sync(fd) != 0)\n            disk_failed(\"flush\");\n"
       "        else\n            break;")]),
    ("a failed rename is ignored", "eio at call",
     [('        disk_failed("rename");', "        errno = 0;")]),
    ("the link is written before G", "refused 6 at",
     [(WRITE, """\
        bool last = heard.length > 1 && i + 2 >= heard.length;
        uint32_t j = last ? 2 * heard.length - 3 - i : i;
        put(image + writes[2 * j], writes[2 * j + 1], writes[2 * j]);
""")]),
    ("no flush before G", "cut after call", [(FLUSHED, "i + 2 >= heard.length")]),
    ("no flush before the link", "cut after call",
     [(FLUSHED, "i + 3 == heard.length || i + 1 == heard.length")]),
    ("one flush for all", "cut after call", [(FLUSHED, "i + 1 == heard.length")]),
    ("no mending", "count: refused 8 at",
     [("    heard = trieff_mend(ALL(image), ALL(work));\n", "")]),
    ("a lowered G is not put back", "byte 3 of the file is",
     [("    heard = trieff_mend(", "    save();\n    heard = trieff_mend("),
      ("    save();\n    if (memcmp", "    if (memcmp")]),
    ("the new file is flushed after its rename", "cut after call",
     [("    flush(file, fsync);\n", ""),
      ("    flush(folder, fsync);\n", "    flush(file, fsync);\n    flush(folder, fsync);\n")]),
    ("the file is written under its own name", "cut after call",
     [('opened(named(".new"), O_RDWR', "opened(name, O_RDWR"),
      ('    if (rename(named(".new"), name) != 0)\n        disk_failed("rename");\n', "")]),
    ("leftovers are removed before the lock is taken", "both were refused",
     [("    lock();\n", '    unlink(named(".new"));\n    lock();\n')]),
    ("a failed store is answered", "eio at call",
     [("    fflush(stdout);\n    fprintf(stderr",
       '    if (storing != NULL)\n        printf("%s = 1: change 1, writes 1\\n", storing);\n'
       "    fflush(stdout);\n    fprintf(stderr")]),
    ("a stop says nothing", "without a sentence",
     [("    vfprintf(stderr, why, values);\n", "")]),
    ("a start does not say that it mended", "mended: False, instead of True",
     [("    if (memcmp(g, image, sizeof g) != 0)\n", "    if (false)\n")]),
    ("a write too many", "the session: write 2 is", [(WRITE, WRITE + WRITE)]),
    ("a write that the shim does not see", "by a call that the shim does not see",
     [("pwrite(file, bytes, length, (off_t)place)",
       "pwritev(file, &(struct iovec){(void *)bytes, length}, 1, (off_t)place)"),
      ("#include <sys/file.h>\n", "#include <sys/file.h>\n#include <sys/uio.h>\n")]),
    ("a short write is taken for a whole one", "short at call",
     [("        length -= (size_t)written;\n", "        length = 0;\n")]),
]


def build(source, replacements, program):
    """Compiles the source with the replacements. Returns what is wrong."""
    for old, new in replacements:
        if source.count(old) != 1:
            return f"does not fit: {source.count(old)} times in {SOURCE}: {old!r}"
        source = source.replace(old, new)
    built = subprocess.run(
        ["gcc", "-std=c11", "-w", "-O1", f"-I{INCLUDE}", "-o", program, "-x", "c", "-", "-x",
         "none", LIBRARY], input=source, capture_output=True, text=True)
    return f"is not compiled: {built.stderr}" if built.returncode else ""


def reported(program, shim, folder, words):
    """Runs cuts.py. Returns what is wrong, and the report."""
    cuts = os.path.join(os.path.dirname(os.path.abspath(__file__)), "cuts.py")
    ran = subprocess.run([sys.executable, cuts, program, shim, folder, "until", words],
                         capture_output=True, text=True)
    lines = [line for line in ran.stdout.splitlines() if "WRONG" in line and words in line]
    if ran.returncode != 1 or not lines:
        return f"is not reported with {words!r}: {ran.stdout[-500:]}{ran.stderr[-500:]}", ""
    return "", lines[0].replace("cuts.py: WRONG ", "")


def attempt(source, shim, folder, mistake):
    """Tries one mistake. Returns its line, and whether it was reported."""
    name, words, replacements = mistake
    place = os.path.join(folder, name.replace(" ", "-"))
    os.makedirs(place, exist_ok=True)
    program, report = os.path.join(place, "bench"), ""
    wrong = build(source, replacements, program)
    if not wrong:
        wrong, report = reported(program, shim, os.path.join(place, "cuts"), words)
    return (f"FAILED {name} {wrong}", False) if wrong else (f"{name}: {report}", True)


def main():
    shim, folder, *names = sys.argv[1:]
    with open(SOURCE) as f:
        source = f.read()
    mistakes = [mistake for mistake in MISTAKES if not names or mistake[0] in names]
    failed = 0
    with concurrent.futures.ThreadPoolExecutor(AT_ONCE) as pool:
        for line, well in pool.map(lambda m: attempt(source, shim, folder, m), mistakes):
            print(f"mutants.py: {line}", flush=True)
            failed += not well
    print(f"mutants.py: {len(mistakes)} mistakes tried, {failed} not reported")
    sys.exit(1 if failed or not mistakes else 0)


if __name__ == "__main__":
    main()
