"""What the pages cite, and what they count."""
import re
import subprocess
import sys
from collections import Counter
from functools import cache
from itertools import zip_longest

from checks.house import (
    CRATES, DECLARED, PAGES, PROMISES, ROOT, at, crate_of, declared, files, found_in, prose,
    tables, text, variants)

LIST = r"(?:: ((?:[^\s,]+,\s+)*[^\s,;]+))?"
FILE = re.compile(r"((?:[\w.+-]+/)+[\w.+-]+\.(?:antt|rt|h|rs|c|py))" + LIST)
EDITS = re.compile(r"(\w+)/must-fail" + LIST)
DASHED = r"[a-z0-9]+(?:-[a-z0-9]+)+"
# no part of the house, though they look like one
OTHERS = {"must-fail", "rattle-kit-13f", "rattle-kit-5b", "valgrind/callgrind.h"}


@cache
def names_of(path):
    """The names that a file declares, and for the types of a source file `Type::name`."""
    if path.suffix == ".antt":
        heads = (DECLARED.match(line.strip()) for line in text(path).splitlines())
        return {head["type"] or head["name"] for head in heads if head}
    if path.suffix == ".rt":
        found = set(re.findall(r"\b(?:fn|struct|enum|const) (\w+)", text(path)))
        block = r"^(?:pub )?(?:impl|enum)(?:<[^>]*>)? (\w+)[^{;]*\{(.*?)^\}"
        for kind, inner in re.findall(block, text(path), re.M | re.S):
            inside = re.findall(r"^ +(?:pub )?(?:fn |const )?(\w+)", inner, re.M)
            found |= {f"{kind}::{name}" for name in inside}
        return found
    return set(re.findall(r"\w+", text(path)))


@cache
def names_in(pattern):
    return set().union(*(names_of(path) for path in files(pattern)))


def place(cited):
    """The file or folder that is meant, or None."""
    bases = (ROOT / "crates", ROOT, ROOT / "docs")
    return next((base / cited for base in bases if (base / cited).exists()), None)


def edit(crate, name):
    return (ROOT / "crates" / crate / "must-fail" / f"{name}.edit").exists()


def split(listed):
    return [name for name in re.split(r",\s+", listed or "") if name]


def passed_over(cited):
    return cited in OTHERS or cited.startswith("target/") or re.search(r"(^|/)[A-Z]+/", cited)


def cited_files(span, drawn):
    """(is it there, what is wrong if not) of the files and edits in a span or a drawing's line."""
    for match in FILE.finditer(span):
        path = place(match[1])
        if passed_over(match[1]) or drawn and not re.match(r"(?!src/).*\.(antt|rt)$", match[1]):
            continue
        yield path, f"no file {match[1]}"
        for name in split(match[2]) if path else ():
            yield name in names_of(path), f"{match[1]} does not declare {name}"
    for match in EDITS.finditer(span):
        yield place(f"{match[1]}/must-fail"), f"no edits in {match[1]}"
        for name in split(match[2]):
            yield edit(match[1], name), f"no edit {match[1]}/{name}"


def cited_words(span):
    """The same for a span that names no file by its ending."""
    if re.fullmatch(r"[\w.+-]+(/[\w.+-]+)+/?", span) and not passed_over(span):
        yield place(span) or edit(*span.split("/", 1)), f"neither a file nor an edit: {span}"
    call = re.fullmatch(r"([a-z_]\w*)::((?:\w+::)?\w+)", span)
    if call:
        there = names_in(f"crates/{call[1]}/src/*.rt")
        yield call[2] in there, f"no {call[2]} in a crate {call[1]}"
    if re.fullmatch(rf"{DASHED}(,\s+{DASHED})*", span) and span not in OTHERS:
        for name in split(span):
            yield name in names_in("crates/**/*.antt"), f"no file declares {name}"


def spans(page):
    """(line, span, drawn) of each code span of a page and each line of its drawings."""
    line = 1
    for part in re.split(r"(^```.*?^```$)", text(page), flags=re.M | re.S):
        if part.startswith("```"):
            yield from ((line + n, row, True) for n, row in enumerate(part.splitlines()))
        else:
            for match in re.finditer(r"`([^`]+)`", part):
                yield line + part.count("\n", 0, match.start()), " ".join(match[1].split()), False
        line += part.count("\n")


@cache
def anchors(page):
    """The anchors of a page's headings, by GitHub's rule."""
    found, seen = set(), Counter()
    for heading in re.findall(r"^#+ +(.*)$", "\n".join(prose(page)), re.M):
        shown = re.sub(r"\[([^\]]*)\]\([^)]*\)", r"\1", heading).strip()
        anchor = re.sub(r"[^\w\- ]", "", shown.lower()).replace(" ", "-")
        found.add(f"{anchor}-{seen[anchor]}" if seen[anchor] else anchor)
        seen[anchor] += 1
    return found


def links(page):
    """(line, is it right, what is wrong if not) of each relative link of a page."""
    shown = re.sub(r"`[^`]*`", lambda m: re.sub(r"[^\n]", " ", m[0]), "\n".join(prose(page)))
    for match in re.finditer(r"\[[^\]]*\]\((?!\w+:)([^)\s#]*)#?([^)\s]*)\)", shown):
        line = shown.count("\n", 0, match.start()) + 1
        path = (page.parent / match[1]).resolve() if match[1] else page
        yield line, path.exists(), f"no file {match[1]}"
        if match[2] and path.is_file():
            yield line, match[2] in anchors(path), f"no heading #{match[2]} in {path.name}"


def folders(page):
    """(line, is it there, what is wrong if not) of each file that is named after its folder."""
    named = r"`((?:crates/)?\w+/(?:specs|proofs))`: ((?:`\w+`(?: \([^)]*\))?(?:, | and )?)+)"
    for line, match in found_in(page, named):
        for name in re.findall(r"`(\w+)`", match[2]):
            there = place(f"{match[1]}/{name}.antt")
            yield line, there, f"no file {match[1]}/{name}.antt"


def names():
    read = 0
    for page in PAGES:
        found = [*links(page), *folders(page)]
        for line, span, drawn in spans(page):
            found += ((line, *cited) for cited in cited_files(span, drawn))
            if not drawn and not FILE.search(span) and not EDITS.search(span):
                found += ((line, *cited) for cited in cited_words(span))
        yield from (at(page, line, why) for line, right, why in found if not right)
        read += len(found)
    return f"{read:,} citations"


def edits():
    found = {f"{crate_of(path)}/{path.stem}": path for path in files("crates/*/must-fail/*.edit")}
    for path in found.values():
        if not re.match(r"# \S", text(path)):
            yield at(path, 1, "its first line does not say what it tries")
    cited = [span for page in PROMISES for _, span, _ in spans(page)]
    tried = {match[1] for span in cited for match in EDITS.finditer(span)}
    tried |= {span.split("/")[0] for span in cited if span in found}
    for crate in sorted({crate_of(path) for path in found.values()} - tried):
        yield at(PROMISES[0], 1, f"it cites no edit of crates/{crate}/must-fail")
    return f"{len(found):,} edits"


# what each noun counts
NOUNS = {
    "crates": "the crates of crates.txt",
    "calls": "the exported functions of crates/trieff/src/lib.rt; of other crates their `pub fn`",
    "refusals": "the variants of `enum Refusal` in crates/paper/src/lib.rt",
    "edits": "the files must-fail/*.edit",
    "laws": "`name : ..` at column 0 or in a module, in the files directly in proofs/",
    "definitions": "the same in specs/, and its records and data",
    "functions": "`fn` in src/",
}
LINES = {
    "calls": ("src/lib.rt", r'^ *pub (?:extern "C" )?fn '),
    "functions": ("src/*.rt", r'^ *(?:pub )?(?:extern "C" )?fn '),
    "edits": ("must-fail/*.edit", r"\A"),
}
ONES = ("one two three four five six seven eight nine ten eleven twelve thirteen fourteen fifteen "
        "sixteen seventeen eighteen nineteen twenty").split()
TENS = "thirty forty fifty sixty seventy eighty ninety".split()
NUMBERS = {**{word: n for n, word in enumerate(ONES, 1)},
           **{word: 10 * n for n, word in enumerate(TENS, 3)}}
WORD = rf"(?:{'|'.join(sorted(NUMBERS, reverse=True))})(?:-{'|-'.join(ONES[:9])})?"
NUMBER = (r"[1-9]\d{0,2}(?:,\d{3})+|[1-9]\d*"
          rf"|(?:{WORD}\s)?hundred(?:\sand\s{WORD})?|(?!one\b){WORD}")
# any other word between a number and a noun is its adjective
SMALL = "as|of|and|or|to|in|on|by|for|with|the|its|is|are|at|from|than|times|million|thousand"
COUNT = re.compile(
    rf"(?<![\w.,+*/^=-])(?P<number>{NUMBER})\s+(?:(?!(?:{SMALL})\s)[a-z-]+\s+)?"
    rf"(?P<noun>{'|'.join(NOUNS)})\b(?:<!--\s*(?P<part>.*?)\s*-->)?", re.I)
# after one of these a number is a name or no count: request 2 calls .., between two calls
NAMING = {"ask", "request", "demand", "document", "row", "floor", "step", "between", "any"}


def value(number):
    found = 0
    for word in re.split(r"[\s-]+", number.lower().replace(",", "")):
        found = max(found, 1) * 100 if word == "hundred" else found + NUMBERS.get(word, 0)
    return int(number.replace(",", "")) if number[0].isdigit() else found


@cache
def counted(noun, crate):
    """How many a crate has."""
    if noun in LINES:
        pattern, sort = LINES[noun]
        own = files(f"crates/{crate}/{pattern}")
        return sum(len(re.findall(sort, text(path), re.M)) for path in own)
    own = files(f"crates/{crate}/{'proofs' if noun == 'laws' else 'specs'}/*.antt")
    kinds = [kind for path in own for _, _, kind, _ in declared(path)]
    return 1 if noun == "crates" else kinds.count(None) if noun == "laws" else len(kinds)


def wrong_count(match):
    """What is wrong with a count, or None. A comment after the noun names the crates of a part."""
    noun, part = match["noun"].lower(), split(match["part"])
    if set(part) - set(CRATES) or part and noun == "refusals":
        return f"no crates to count {noun} of: {match['part']}"
    there = sum(counted(noun, crate) for crate in part or CRATES)
    if not part and noun == "calls":
        there = counted("calls", "trieff")
    if noun == "refusals":
        found = variants(ROOT / "crates/paper/src/lib.rt")
        there = sum(enum == "Refusal" for _, enum, _ in found)
    where = f" of {', '.join(part)}" if part else ""
    why = f"{match['number']} {noun}{where}, and there are {there:,}: {NOUNS[noun]}"
    return why if value(match["number"]) != there else None


def counts():
    read = 0
    for page in [*PAGES, *files("include/trieff.h", "tests/README.md", "crates.txt")]:
        for line, match in found_in(page, COUNT):
            before = re.findall(r"\w+", match.string[:match.start()].lower())
            if NAMING & {*before[-1:]}:
                continue
            read += 1
            why = wrong_count(match)
            if why:
                yield at(page, line, why)
    rows = yield from count_table()
    return f"{read:,} counts and {rows} rows of a table"


def count_table():
    """The table under "The count" in docs/PROOF.md is what docs/count prints."""
    page = ROOT / "docs/PROOF.md"
    ran = subprocess.run([sys.executable, ROOT / "docs/count"], capture_output=True, text=True)
    if ran.returncode:
        yield at(ROOT / "docs/count", 1, ran.stderr.strip())
    found = [rows for heading, _, rows in tables(page) if heading == "## The count"]
    first, last = (found[0][0][0] - 2, found[0][-1][0]) if found else (1, 0)
    printed, shown = ran.stdout.splitlines(), text(page).splitlines()[first - 1:last]
    for n, (row, there) in enumerate(zip_longest(printed, shown, fillvalue="no row")):
        if row != there:
            yield at(page, first + n, f"docs/count prints {row}")
    return len(printed)
