"""What was asked, docs/asked/, beside what the pages and the comments say of it."""
import re
from itertools import groupby

from checks.cited import FILE
from checks.house import (
    CRATES, PAGES, PROMISES, ROOT, SOURCES, at, crate_of, files, paragraphs, tables, text)

# quotations from a document that is not here: 002, the public text of TRIEFF 0.6.0
ELSEWHERE = {
    "A UTF-8 character": "002",
    "Address can't refer to an ancestor or its own node": "002",
    "It has no parent": "002",
    "first traverses the document as when querying it": "002",
    "it starts creating the needed nodes by appending them at the end of the document, provided "
    "that the value to be written is different from 0": "002",
    "No two adresses in the same document can be equal": "002",
    "No two nodes can have the same child": "002",
    "Node can't be its own ancestor": "002",
    "Root node is the first node in the document. It has no parent": "002",
    "every node except the root node has exactly one parent": "002",
    "doesn't check whether [G] may overflow": "002",
}
JOINED = re.compile(r"(?:^|(?<=\s))\[?(?:\.{2,3}|…)\]?(?=[\s,.;:]|$)")


def plain(said):
    """Without markup, with single blanks; a quotation inside is in single marks."""
    return re.sub(r"\s+", " ", re.sub(r"[*`_>|#]", " ", said.replace('"', "'"))).strip()


ASKED = [plain(text(path)) for path in files("docs/asked/*.md")]


def stands(quoted):
    """Do the pieces of a quotation stand in one document, in order, first letters in any case?"""
    pieces = [plain(piece).strip(" .,;:") for piece in JOINED.split(quoted)]
    free = [f"[{piece[0].lower()}{piece[0].upper()}]{re.escape(piece[1:])}"
            if piece[0].isalpha() else re.escape(piece) for piece in pieces if piece]
    run = r"(?<!\w)" + r"(?!\w).*?(?<!\w)".join(free) + r"(?!\w)"
    return any(re.search(run, document) for document in ASKED)


def titles():
    """The headings of our own pages and the titles of the decisions, with the page of each."""
    found = {}
    for page in [*PAGES, *files("tests/README.md")]:
        for _, said in paragraphs(page):
            head = re.match(r"#+ ([^\n]*)|\d+\. \*\*(.*?)\*\*", said, re.S)
            if head:
                found[plain(head[1] or head[2]).strip(" .")] = page.relative_to(ROOT)
    return found


def quotations():
    read, own = 0, titles()
    for path in [*PAGES, *SOURCES]:
        for start, said in paragraphs(path):
            said = re.sub(r"`[^`]*`", lambda span: span[0].replace('"', "'"), said)
            for match in re.finditer(r'"([^"]+)"', said):
                quoted = plain(match[1])
                page = own.get(quoted.strip(" ."))
                if len(quoted.split()) < 3 and not page:
                    continue
                read += 1
                if quoted not in ELSEWHERE and not stands(match[1]):
                    why = f"a title of {page}, link to it" if page else "not in docs/asked"
                    line = start + said.count("\n", 0, match.start())
                    yield at(path, line, f'{why}: "{quoted}"')
    return f"{read:,} quotations"


def words(said):
    """The words of a text, without markup and without the marks around them."""
    bare = (word.strip(".,;:()") for word in re.sub(r'[*_|·"“”`\\]', "", said).split())
    return [word for word in bare if word.strip("-")]


def parts(path):
    """(line, text, is it needed) of a document. What needs an ask is its own page."""
    asks = {int(page.name[:2]) for page in files("docs/promises/[0-9][0-9]-*.md")}
    lines = text(path).splitlines()
    for number, (line, below) in enumerate(zip(lines, [*lines[1:], ""]), 1):
        demand = re.match(r"> \d+\. (.*)", line)
        ask = re.match(r"(\*\*Ask (\d+)\..*?\*\*)(.*)", line)
        if path.name.startswith("00"):
            yield number, demand[1] if demand else line.lstrip("> "), bool(demand)
        elif path.name.startswith("01"):
            yield number, line, not line.startswith("#") and not below.startswith("|--")
        elif ask:
            yield number, ask[1], 0
            yield number, ask[3], int(ask[2]) if int(ask[2]) in asks else 0
        else:
            yield number, line, 0


class Document:
    """A document word by word: the line of each, whether a page must hold it, whether one does."""

    def __init__(self, path):
        found = [(word, line, need) for line, said, need in parts(path) for word in words(said)]
        self.words, self.lines, self.needed = zip(*found)
        self.marked = [False] * len(found)
        self.path, self.last = path, 0

    def mark(self, run):
        """Marks a run: after the last one, else where it is new, else anywhere. Is there one?"""
        size, run = len(run), tuple(run)
        found = [i for i, word in enumerate(self.words)
                 if word == run[0] and self.words[i:i + size] == run]
        ahead = [i for i in found if i >= self.last]
        new = [i for i in found if not all(self.marked[i:i + size])]
        for start in (ahead or new or found)[:1]:
            self.last = start + size
            self.marked[start:self.last] = [True] * size
        return bool(found)

    def missing(self):
        """(line, words) of each run that a page must hold and none does."""
        def lacks(i):
            return self.lines[i], bool(self.needed[i]) and not self.marked[i]
        for (line, lacking), run in groupby(range(len(self.words)), lacks):
            if lacking:
                yield line, [self.words[i] for i in run]


def rows(page):
    """(heading, line, cells) of each row of the tables of sentences."""
    for heading, header, found in tables(page):
        if header == ["Sentence", "By", "Status"]:
            yield from ((heading, line, cells) for line, cells in found)


def short(run):
    return " ".join(run if len(run) <= 20 else [*run[:14], "..", *run[-4:]])


def sentences():
    read = 0
    held = {path.name[:2]: Document(path) for path in files("docs/asked/*.md")}
    for page in PROMISES:
        ask = re.match(r"\d\d", page.name)
        if ask and int(ask[0]) in held["02"].needed:
            held["02"].last = held["02"].needed.index(int(ask[0]))
        begins = {"## Demand": "00", "## 01": "01", **({"": "02"} if ask else {})}
        for heading, line, cells in rows(page):
            name = next((begins[key] for key in begins if heading.startswith(key)), None)
            run = words(cells[0])
            if name and run and not cells[0].startswith("*"):
                read += 1
                if not held[name].mark(run):
                    yield at(page, line, f'not in document {name}: "{short(run)}"')
    for document in held.values():
        for line, run in document.missing():
            yield at(document.path, line, f'no page holds: "{short(run)}"')
    return f"{read:,} sentences"


def proves(span):
    """Is it a name of a file in a crate's proofs/ or src/?"""
    cited, called = FILE.match(span), re.fullmatch(r"(\w+)::[\w:]+", span)
    inside = cited and cited[2] and re.match(r"(crates/)?\w+/(proofs|src)/", cited[1])
    return inside or called and called[1] in CRATES


def tests(span):
    """Is it a file of the tests, the examples or the samples, a program, or the gate?"""
    programs = "|".join(crate_of(path) for path in files("crates/*/src/main.rt"))
    return re.match(
        rf"(tests|examples|samples|\.ci)/|(target/bin/|crates/)?({programs})(/|$)", span)


def groups(page):
    return {name.lower() for name in re.findall(r"^- \*([^*\n]+)\*:", text(page), re.M)}


def status():
    read = 0
    for page in PROMISES:
        known = groups(page) | groups(PROMISES[0])
        for _, line, cells in rows(page):
            read += 1
            if len(cells) != 3:
                yield at(page, line, f"{len(cells)} cells, and a row has three")
                continue
            _, by, said = cells
            spans = re.findall(r"`([^`]+)`", by)
            used = re.findall(r"(?<![*\w])\*([^*]+)\*(?![*\w])", re.sub(r"`[^`]*`", "", by))
            if said not in ("proved", "in part", "tested", "replaced", "open", "asks nothing"):
                yield at(page, line, f"no status: {said}")
            for name in used:
                if name.lower() not in known:
                    yield at(page, line, f"no group *{name}* is defined")
            named = any(name.lower() in known for name in used)
            if said in ("proved", "in part") and not named and not any(map(proves, spans)):
                yield at(page, line, f"{said}, and it cites no name of a file in proofs/ or src/")
            if said == "replaced" and not re.search(r"\]\(promises/\d\d-[a-z]+\.md\)", by):
                yield at(page, line, "replaced, and it links to no page of promises/")
            if said == "tested" and not any(map(tests, spans)):
                yield at(page, line, "tested, and it cites no test, example, sample or program")
    return f"{read:,} rows"
