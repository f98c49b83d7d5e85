#!/usr/bin/env python3
"""Draws docs/pictures/store.svg: the writes and flushes of README's store of BA = 9, which bytes
they write, in which order, and what a cut at each place leaves. Without an argument it prints the
picture; `docs/check` compares it with the file.

    python3 docs/pictures/store.py > docs/pictures/store.svg
"""
from html import escape

# the image before the store: 28 bytes of head, the letters ABC, an empty root, then spare bytes
BEFORE = bytes.fromhex("00000000 00000003 00000001 00000001 00000003 00000001 00000003"
                       "414243 00000000")
# each write: what it is, its offset, its bytes
WRITES = [("node 1", 35, bytes.fromhex("02000000")), ("node 2", 39, bytes.fromhex("00000009")),
          ("G", 0, bytes.fromhex("00000002")), ("the link", 32, bytes.fromhex("01"))]
FLUSHED = (1, 2, 3)  # a flush comes after these writes
# what is drawn of the image: the name of a piece, its first offset, its length
PIECES = [("G", 0, 4), ("node 0", 31, 4), ("node 1", 35, 4), ("node 2", 39, 4)]
LEAVES = [
    (1, ["any bytes of the new nodes, in any order.", "They are spare bytes: mending changes",
         "nothing. BA is absent."]),
    (2, ["G whole or not at all. If it landed, the", "check answers 8 at 1, and mending puts",
         "G back to 0. BA is absent."]),
    (3, ["the link whole or not at all. If it landed,", "BA is 9. If not, mending puts G back",
         "to 0, and BA is absent."]),
]

BYTE, ROW, LEFT, TOP = 30, 34, 150, 96
GAP = 26  # between two pieces
RIGHT = LEFT + 16 * BYTE + 3 * GAP + 28
WIDTH = RIGHT + 330


def left_of(offset):
    """Where a byte is drawn, or None if it is left out."""
    x = LEFT
    for _, first, length in PIECES:
        if first <= offset < first + length:
            return x + (offset - first) * BYTE
        x += length * BYTE + GAP
    return None


class Picture:
    def __init__(self):
        self.parts = []

    def text(self, x, y, words, size=14, **more):
        style = "".join(f' {k.replace("_", "-")}="{v}"' for k, v in more.items())
        self.parts.append(f'<text x="{x}" y="{y}" font-size="{size}"{style}>'
                          f"{escape(words)}</text>")

    def line(self, x1, y1, x2, y2, colour="#555", dashes=""):
        dashed = f' stroke-dasharray="{dashes}"' if dashes else ""
        self.parts.append(f'<line x1="{x1}" y1="{y1}" x2="{x2}" y2="{y2}" stroke="{colour}"'
                          f' stroke-width="2"{dashed}/>')

    def byte(self, offset, y, value, new):
        x = left_of(offset)
        fill = "#ffd27f" if new else "#f4f4f4" if value is None else "#dbe9f6"
        self.parts.append(f'<rect x="{x}" y="{y}" width="{BYTE - 3}" height="{ROW - 9}" rx="3"'
                          f' fill="{fill}" stroke="#888"/>')
        words = ".." if value is None else f"{value:02X}"
        self.text(x + (BYTE - 3) / 2, y + 17, words, 13, text_anchor="middle",
                  font_family="monospace")

    def image(self, y, held, new=()):
        for _, first, length in PIECES:
            for offset in range(first, first + length):
                self.byte(offset, y, held.get(offset), offset in new)

    def whole(self, height):
        words = ("The writes of a store: two new nodes, flush, G, flush, the link, flush; and "
                 "what a cut at each place leaves")
        return "\n".join([
            f'<svg xmlns="http://www.w3.org/2000/svg" viewBox="0 0 {WIDTH} {height}" '
            f'width="{WIDTH}" height="{height}" font-family="sans-serif" role="img">',
            f"<title>{escape(words)}</title>",
            f'<rect width="{WIDTH}" height="{height}" fill="#fff"/>',
            *self.parts, "</svg>", ""])


def headings(picture):
    picture.text(16, 28, "A store of BA = 9: four writes, three flushes", 19, font_weight="bold")
    picture.text(RIGHT, 28, "A cut in this part leaves", 16, font_weight="bold")
    for name, first, length in PIECES:
        picture.text(left_of(first), 58, name, 14, font_weight="bold")
        picture.text(left_of(first), 76, f"bytes {first} to {first + length - 1}", 12,
                     fill="#555")
    picture.text(16, TOP + 17, "before")


def draw():
    picture, held = Picture(), dict(enumerate(BEFORE))
    headings(picture)
    y = TOP
    picture.image(y, held)
    y += ROW
    begun, leaves = y, iter(LEAVES)
    for i, (name, place, written) in enumerate(WRITES):
        new = range(place, place + len(written))
        held.update(zip(new, written))
        picture.text(16, y + 17, f"{i + 1}. write {name}")
        picture.image(y, held, new)
        y += ROW
        if i in FLUSHED:
            number, lines = next(leaves)
            picture.line(16, y + 5, RIGHT - 18, y + 5, "#b03030")
            picture.text(16, y + 22, f"flush {number}", 14, fill="#b03030", font_weight="bold")
            y += ROW
            picture.line(RIGHT - 10, begun, RIGHT - 10, y - 6, "#b03030", "5 4")
            for j, words in enumerate(lines):
                picture.text(RIGHT, begun + 16 + 18 * j, words, 14)
            begun = y
    picture.text(16, y + 18, "Now the store is answered: no cut takes it back.", 15,
                 font_weight="bold")
    picture.text(LEFT + 8 * BYTE + 2 * GAP + 100, y + 18,
                 "yellow: written now; ..: spare bytes, which hold anything", 12, fill="#555")
    return picture.whole(y + 34)


if __name__ == "__main__":
    print(draw(), end="")
