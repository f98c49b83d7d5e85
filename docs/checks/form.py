"""The form of the house: its names, lines, comments, calls, words and pictures."""
import re
import subprocess
import sys
from collections import defaultdict

from checks.house import (
    PAGES, ROOT, SOURCES, at, crate_of, declared, files, found_in, prose, tables, text,
    variants)

# files that say the same kind of thing in each crate that has them
ALIKE = {"Lib", "Calls", "Cases", "Orders", "Promises", "Unique", "Tabulated", "Computed"}


def homonyms():
    found, read = defaultdict(list), 0
    for path in files("crates/*/specs/*.antt", "crates/*/proofs/*.antt"):
        found[path.stem].append(path)
    for stem in sorted(found.keys() - ALIKE):
        for path in found[stem]:
            if crate_of(path) != crate_of(found[stem][0]):
                yield at(path, 1, f"{found[stem][0].relative_to(ROOT)} has the same name")
    first = {}
    for path in files("crates/*/specs/*.antt"):
        for line, name, _, public in declared(path):
            if not public or name == "cases" and path.stem == "Cases":
                continue
            read += 1
            other, where = first.setdefault(name.lower(), (name, path))
            if where != path:  # in one file a type and what builds it may differ in case alone
                how = ("is declared twice" if other == name
                       else f"differs in case alone from {other}")
                yield at(path, line, f"{name} {how}, in {where.relative_to(ROOT)}")
    return f"{len(found):,} names of files and {read:,} of definitions"


# where the code beside the crates is, and its endings
BESIDE = (".ci", "bench", "docs", "examples", "rust", "samples", "tests")
ENDINGS = {".c", ".h", ".py", ".rs", ".sh", ".toml"}


def is_code(path):
    """Is it a file with an ending of code, or a script without an ending?"""
    return path.is_file() and (
        path.suffix in ENDINGS or not path.suffix and path.read_bytes().startswith(b"#!"))


def columns():
    beside = files(*(f"{folder}/**/*" for folder in BESIDE))
    read = 0
    for path in [*SOURCES, *filter(is_code, beside)]:
        for number, line in enumerate(text(path).splitlines(), 1):
            read += 1
            if len(line) > 99:
                yield at(path, number, f"{len(line)} columns, and 99 are allowed")
    return f"{read:,} lines"


def comments():
    read = 0
    for path in files("crates/*/src/*.rt"):
        lines, wanted = text(path).splitlines(), []
        if crate_of(path) not in ("cases", "list"):
            wanted += ((n, f"{enum}::{name}", prose(path)[n - 1])
                       for n, enum, name in variants(path))
        for number, line in enumerate(lines, 1):
            head = re.match(r' *pub (?:extern "C" )?(?:fn|const|struct|enum) (\w+)', line)
            wanted += [(number, head[1], "")] if head else []
        for number, name, behind in wanted:
            above = number - 2
            while lines[above].strip().startswith("#["):
                above -= 1
            read += 1
            if not behind.strip() and not lines[above].strip().startswith("//"):
                yield at(path, number, f"{name} has no comment")
    return f"{read:,} names"


README, HEADER, RAW = ROOT / "README.md", ROOT / "include/trieff.h", ROOT / "rust/src/raw.rs"
CODE, SPEC = ROOT / "crates/paper/src/lib.rt", ROOT / "crates/paper/specs/Answers.antt"
PROTOTYPE = {HEADER: r"^\w+ \*?(trieff_\w+)\(", RAW: r"^ *pub fn (trieff_\w+)\("}
COMMENTED = {HEADER: r"/\*((?:(?!\*/)[\s\S])*)\*/\s*", RAW: r"((?:^ *///.*\n)+)"}


def table(first):
    """The rows of README's table whose header begins so."""
    return next((rows for _, header, rows in tables(README) if header[0] == first), [])


def named(path, pattern):
    """The names that a pattern finds in a file, each with its line."""
    return {match[1]: text(path).count("\n", 0, match.start(1)) + 1
            for match in re.finditer(pattern, text(path), re.M)}


def same_calls():
    """The same calls are exported, declared for C and for Rust, and in README's table."""
    exported = named(ROOT / "crates/trieff/src/lib.rt", r'pub extern "C" fn (\w+)')
    listed = {path: named(path, PROTOTYPE[path]) for path in (HEADER, RAW)}
    listed[README] = {"trieff_" + cells[0].strip("`"): line for line, cells in table("Call")}
    for path, found in listed.items():
        for name in sorted(found.keys() - exported.keys()):
            yield at(path, found[name], f"{name} is not exported by crates/trieff/src/lib.rt")
        for name in sorted(exported.keys() - found.keys()):
            yield at(path, min(found.values(), default=1), f"{name} is missing")


def same_numbers():
    """The refusals have the same numbers in code, definitions, header and README, in one order."""
    bare = re.sub(r"/\*.*?\*/", "", text(HEADER), flags=re.S)
    enum = re.search(r"enum trieff_number \{.*?\}", bare, re.S)
    body = re.search(r"fn number\(.*?^    \}$", text(CODE), re.M | re.S)
    listed = re.findall(r"= (\d+)", enum[0]) if enum else []
    want = re.findall(r"=> (\d+),", body[0]) if body else []
    for path, found in ((SPEC, re.findall(r"^said_of .*= number_at (\d+)", text(SPEC), re.M)),
                        (HEADER, [number for number in listed if number != "0"]),
                        (README, [cells[0] for _, cells in table("No.")])):
        if found != want:
            yield at(path, 1, f"its refusals are {' '.join(found)}, in code {' '.join(want)}")


def order(said, known):
    """The numbers that a list of refusals names, in order; `as store` is that call's list."""
    said = re.sub(r"\([^)]*\)|`|///|trieff_", "", said).split(".")[0].strip()
    found = list(known.get(said.removeprefix("as "), []))
    for item in said.split(","):
        number = re.match(r"\s*(?:then\s+)?(\d+)(?:\s+to\s+(\d+))?\b", item)
        found += range(int(number[1]), int(number[2] or number[1]) + 1) if number else []
    return found


def same_orders():
    """The comments on a call in the header and in raw.rs name the refusals of README, in order."""
    want = {}
    for _, cells in table("Call"):
        want[cells[0].strip("`")] = order(cells[-1], want)
    for path in (HEADER, RAW):
        found, lines = {}, named(path, PROTOTYPE[path])
        for said, name in re.findall(COMMENTED[path] + PROTOTYPE[path], text(path), re.M):
            found[name.removeprefix("trieff_")] = order(said.partition("Refusals:")[2], found)
        for call in want:
            here, there = (" ".join(map(str, of.get(call, []))) for of in (found, want))
            if here != there and f"trieff_{call}" in lines:
                why = f"the refusals of {call} are {here or 'not there'}, in README {there}"
                yield at(path, lines[f"trieff_{call}"], why)


def same_texts():
    """A refusal has the same words in the header's trieff_text as in Rust."""
    path = ROOT / "rust/src/refusal.rs"
    numbers = dict(re.findall(r"(TRIEFF_\w+) = (\d+)", text(HEADER)))
    of_name = dict(re.findall(r"Refusal::(\w+)(?:\(_\))? => (\d+),", text(path)))
    in_rust = {of_name.get(name): said for name, said in
               re.findall(r'Refusal::(\w+)(?:\(_\))? => "(.*)"', text(path))}
    in_c = {numbers.get(name): said for name, said in
            re.findall(r'case (TRIEFF_\w+): return "(.*)"', text(HEADER))}
    for number in sorted({*numbers.values()} - {"0"}, key=int):
        if in_c.get(number) is None or in_c[number] != in_rust.get(number):
            yield at(HEADER, 1, f"trieff_text says {in_c.get(number)!r} for {number}, "
                                f"refusal.rs {in_rust.get(number)!r}")


def same_version():
    """The declarations for Rust follow this version of the header."""
    in_c = re.search(r"#define TRIEFF_VERSION (\d+)$", text(HEADER), re.M)
    in_rust = re.search(r"pub const VERSION: u32 = (\d+);", text(RAW))
    if in_c is None or in_rust is None or in_c[1] != in_rust[1]:
        yield at(RAW, 1, f"VERSION is {in_rust and in_rust[1]}, the header's {in_c and in_c[1]}")


def calls():
    yield from same_calls()
    yield from same_version()
    yield from same_numbers()
    yield from same_orders()
    yield from same_texts()
    return f"{len(table('Call'))} calls and {len(table('No.'))} refusals"


# what readers stumbled over, and what to write
STUMBLED = {
    "is had back from": "is recovered from",
    "is had by": "depends only on",
    "is had backwards": "is derived backwards from",
    "the nodes end behind the image": "the nodes do not fit: U exceeds the image's length",
    "behind the (?:check|key|alphabet|image)": "after it, once it has passed",
    "asked again and again": "called repeatedly",
    "only what 0 means is told": "the contract covers only the result 0",
    "never said to be blank": "answered false",
    "where the walk ended so": "given how the walk ended",
    "neither 7 nor 8 is to be sought": "neither 7 nor 8 can apply",
    "a crate of doors": "entry points",
    "how far an order has come": "the outcome of part of an order",
    "which nobody asks for": "which are unused",
}


def words():
    phrases = re.compile(rf"\b(?:{'|'.join(STUMBLED)})\b".replace(" ", r"\s+"), re.I)
    for path in [*PAGES, *SOURCES]:
        listed = [rows for _, header, rows in tables(path) if header[:2] == ["Not", "But"]]
        lines = {line for rows in listed for line, _ in rows}
        for line, match in found_in(path, phrases):
            phrase = " ".join(match[0].split())
            instead = next(STUMBLED[old] for old in STUMBLED if re.match(old, phrase, re.I))
            if line not in lines:
                yield at(path, line, f'"{phrase}": write "{instead}"')
    return f"{len(STUMBLED)} phrases"


def pictures():
    scripts = sorted((ROOT / "docs/pictures").glob("*.py"))
    for script in scripts:
        drawn = subprocess.run([sys.executable, script], stdout=subprocess.PIPE, text=True)
        if drawn.returncode != 0 or drawn.stdout != text(script.with_suffix(".svg")):
            yield at(script.with_suffix(".svg"), 1, f"{script.name} draws another picture")
    return f"{len(scripts)} picture"
