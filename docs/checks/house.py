"""The tree that is checked: its pages and sources, what they declare, and the prose in them."""
import re
import sys
from functools import cache
from pathlib import Path

HERE = Path(__file__).resolve().parent.parent.parent
ROOT = Path(sys.argv[1]).resolve() if len(sys.argv) > 1 else HERE
TYPE = r"(?P<kind>record|data) (?P<type>[^\s:(){}]+)"
SIGNED = r"(?P<name>[^\s:(){}]+)(?: \{[^}]*\})? :(?:\s|$)"
DECLARED = re.compile(rf"(?P<before>(?:(?:unfoldable|abbrev|pub)\s+)*)(?:{TYPE}|{SIGNED})")
# a comment alone on its line or behind code; what stands in quotes in code is none
COMMENT = {
    ".rt": re.compile(
        r"""(?:[^"'/]|/(?!/)|"(?:\\.|[^"\\])*"|'(?:\\.|[^'\\])'|'(?!\\|.'))*//(.*)"""),
    ".antt": re.compile(r"(?:.*?\s)??--(.*)"),
    ".txt": re.compile(r"#(.*)"),
}


@cache
def text(path):
    return path.read_text(encoding="utf-8")


@cache
def files(*patterns):
    found = (path for pattern in patterns for path in sorted(ROOT.glob(pattern)))
    return [path for path in found if not {"target", "out"} & set(path.relative_to(ROOT).parts)]


PAGES = files("README.md", "docs/*.md", "docs/promises/*.md")
PROMISES = files("docs/PROMISES.md", "docs/promises/*.md")
SOURCES = files("crates/**/*.rt", "crates/**/*.antt", "include/trieff.h")
CRATES = re.findall(r"^(\w+)(?: staticlib)?:", text(ROOT / "crates.txt"), re.M)


def at(path, line, why):
    return f"{path.relative_to(ROOT)}:{line}: {why}"


def crate_of(path):
    return path.relative_to(ROOT).parts[1]


@cache
def declared(path):
    """(line, name, `record` or `data`, is it `pub`) of each declaration of an antt file.

    It stands at column 0 or in a module. The fields of a record, the constructors of data and what
    stands under a function's `where` belong to the name above them. The head of a module may take
    several lines and ends with its own `where`.
    """
    found, inside, module = [], None, False
    for number, line in enumerate(text(path).splitlines(), 1):
        words, depth = line.strip(), len(line) - len(line.lstrip())
        if not words or words.startswith("--") or inside is not None and depth > inside:
            continue
        module = module or words.startswith("module ")
        if module:
            inside, module = None, not words.endswith("where")
            continue
        head = DECLARED.match(words)
        inside = depth if head and head["kind"] or words == "where" else None
        if head:
            name = head["type"] or head["name"]
            found.append((number, name, head["kind"], "pub" in head["before"]))
    return found


@cache
def variants(path):
    """(line, enum, variant) of each variant of the enums of a source."""
    found, enum = [], None
    for number, line in enumerate(text(path).splitlines(), 1):
        opened, variant = re.match(r"(?:pub )?enum (\w+)", line), re.match(r" {4}([A-Z]\w*)", line)
        enum = opened[1] if opened else None if line.startswith("}") else enum
        if enum and variant:
            found.append((number, enum, variant[1]))
    return found


@cache
def prose(path):
    """The lines of a page outside code blocks, or the comments of a source, line by line."""
    said = text(path)
    if path.suffix == ".md":
        def blank(block):
            return "\n" * block[0].count("\n")
        return re.sub(r"^```.*?^```$", blank, said, flags=re.M | re.S).splitlines()
    if path.suffix == ".h":
        return re.sub(r"/\*(.*?)\*/|[^\n/]+|/", r"\1", said, flags=re.S).splitlines()
    found = (COMMENT[path.suffix].match(line) for line in said.splitlines())
    return [match[1] if match else "" for match in found]


def paragraphs(path):
    """(line, text) of each paragraph; in a page an item of a list and a row of a table are one."""
    opens = re.compile(r"[-*] |#+ |\||\d+\. " if path.suffix == ".md" else r"$")
    block, start = [], 0
    for number, line in enumerate([*prose(path), ""], 1):
        if block and (not line.strip() or opens.match(line)):
            yield start, "\n".join(block)
            block = []
        if line.strip():
            start = start if block else number
            block.append(line.strip())


def found_in(path, pattern):
    """(line, match) of each place in the paragraphs of a file where a pattern is met."""
    for start, said in paragraphs(path):
        for match in re.finditer(pattern, said):
            yield start + said.count("\n", 0, match.start()), match


@cache
def tables(path):
    """(heading, header, rows) of each table of a page; a row is (line, cells)."""
    found, heading, rows = [], "", []
    for number, line in enumerate([*prose(path), ""], 1):
        heading = line if line.startswith("## ") else heading
        if line.startswith("|"):
            cells = re.split(r"(?<!\\)\|", line.strip().removeprefix("|").removesuffix("|"))
            rows.append((number, [cell.strip() for cell in cells]))
        elif rows:
            found.append((heading, rows[0][1], rows[2:]))
            rows = []
    return found
