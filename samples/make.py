#!/usr/bin/env python3
"""Makes images with its own store, independent of the library.

make.py                 writes the samples p3.trieff, season.trieff, renumbered.trieff,
                        hidden.trieff and eight.trieff beside this file, and what `list` must write
                        for each of them: p3.txt, season.txt and so on
make.py bench FOLDER    writes the images that bench/run measures
"""
import os
import random
import struct
import sys


class Image:
    """An image as document 01 defines it. Nodes are added at the end, as a store does. A key of
    any length is stored, so that hidden data can be made too."""

    def __init__(self, room, n, a, d, alphabet, least, most):
        self.n, self.a, self.d, self.alphabet, self.least, self.most = (
            n, a, d, alphabet.encode(), least, most)
        self.width = n * a + d
        self.first = 28 + len(self.alphabet)
        self.last = (room - self.first) // self.width - 1
        self.bytes = bytearray(room)
        self.g = 0
        self.stored = {}

    def store(self, key, value):
        """Stores a value under a key. If there is no room, stores nothing and returns False."""
        node = 0
        for depth, letter in enumerate(key):
            at = self.first + node * self.width + letter * self.a
            child = int.from_bytes(self.bytes[at:at + self.a], "big")
            if child == 0:
                if self.g + len(key) - depth > self.last:
                    return False
                self.g += 1
                child = self.g
                self.bytes[at:at + self.a] = child.to_bytes(self.a, "big")
            node = child
        at = self.first + node * self.width + self.n * self.a
        self.bytes[at:at + self.d] = value.to_bytes(self.d, "big")
        self.stored[tuple(key)] = value
        return True

    def node_of(self, key):
        """The address of the node where a stored key ends."""
        node = 0
        for letter in key:
            at = self.first + node * self.width + letter * self.a
            node = int.from_bytes(self.bytes[at:at + self.a], "big")
        return node

    def whole(self):
        head = struct.pack(">7I", self.g, self.n, self.a, self.d, len(self.alphabet), self.least,
                           self.most)
        self.bytes[:self.first] = head + self.alphabet
        return bytes(self.bytes)

    def listing(self):
        """Document 01's lines of the listing, made from what was stored and not from the bytes. A
        key whose length is outside min..max is hidden data: the line is that of 19."""
        hidden = [key for key in self.stored if not self.least <= len(key) <= self.most]
        if hidden:
            return b"refused 19 at %d\n" % min(self.node_of(key) for key in hidden)
        lines = ["entries %d" % len(self.stored)]
        for key, value in sorted(self.stored.items()):
            lines.append("%s %d" % (".".join(map(str, key)) or "-", value))
        return "".join(line + "\n" for line in lines).encode()

    def used(self, spare=0):
        """The image up to U, with room for `spare` more nodes."""
        return self.whole()[:self.first + (self.g + 1 + spare) * self.width]


def p3():
    image = Image(43, 3, 1, 1, "ABC", 1, 3)
    image.store([1, 0], 9)
    image.store([1], 5)
    return image


LETTERS = "0123456789ABCDE-"


def letter_numbers(label, letters=LETTERS):
    return [letters.index(character) for character in label]


def season(least=1):
    """Labels as they are tapped in: trench, square, context, bucket, as in B04-117-2. Contexts are
    dug one after the other."""
    image = Image(65536, 16, 3, 4, LETTERS, least, 12)
    record = 2401
    context = 100
    for trench, squares in (("A", 6), ("B", 5), ("C", 4), ("D", 3)):
        for square in range(1, squares + 1):
            for _ in range(3 + (square * 7 + squares) % 5):
                context += 1
                for bucket in range(1, 2 + (context * 5 + square) % 8):
                    label = f"{trench}{square:02}-{context}-{bucket}"
                    if not image.store(letter_numbers(label), record):
                        raise SystemExit("no room")
                    record += 1
    return image


def renumbered(image):
    """The same nodes under other addresses, as a tool numbers them that does not go from parent to
    child. The root stays node 0."""
    nodes = image.g + 1
    new = [old * 407 % nodes for old in range(nodes)]
    if sorted(new) != list(range(nodes)):
        raise SystemExit("two nodes have one address")
    before = bytes(image.bytes)
    for old in range(nodes):
        node = bytearray(before[image.first + old * image.width:][:image.width])
        for at in range(0, image.n * image.a, image.a):
            child = int.from_bytes(node[at:at + image.a], "big")
            node[at:at + image.a] = new[child].to_bytes(image.a, "big")
        place = image.first + new[old] * image.width
        image.bytes[place:place + image.width] = node
    return image


def hidden():
    """The season in a file for labels of nine letters or more, where another tool has put a record
    under a whole trench and one under a whole context. The context's node has the lower address,
    the trench's the lesser depth."""
    image = season(9)
    image.store(letter_numbers("D"), 2795)
    image.store(letter_numbers("B03-145"), 2796)
    return image


def eight():
    """Labels in a file with D = 8. Their record numbers run past four bytes, from 2^32 - 3 on: the
    low 32 bits of the fourth are 0. Then there is one whose bytes are 1 to 8, and the greatest,
    2^64 - 1. No field lies across the end of a sector: A = 2 and D = 8 divide 28 + F = 40 and
    W = 32."""
    letters = "0123456789-B"
    image = Image(4096, 12, 2, 8, letters, 1, 12)
    labels = [f"B{square:02}-{bucket}" for square in range(1, 5) for bucket in range(1, 7)]
    for record, label in enumerate(labels, 2**32 - 3):
        image.store(letter_numbers(label, letters), record)
    image.store(letter_numbers("B99-8", letters), 0x0102030405060708)
    image.store(letter_numbers("B99-9", letters), 2**64 - 1)
    return image


def numbered(room, most, d=4, spare=0):
    """At most `most` labels of nine digits in base 16, counted up from 0, with room left for
    `spare` nodes. Their values have six digits; if D is 8, they are these times 2^32, so that four
    bytes of them are 0."""
    image = Image(room, 16, 3, d, "0123456789ABCDEF", 1, 12)
    image.last -= spare
    stored = 0
    while stored < most and image.store([(stored >> shift) & 15 for shift in range(32, -1, -4)],
                                        stored + 100000 << (32 if d == 8 else 0)):
        stored += 1
    return image


def wide(alphabet, text):
    """An image with this alphabet and one label."""
    image = Image(65536, len(alphabet), 3, 4, alphabet, 1, 12)
    image.store([alphabet.index(c) for c in text], 2401)
    return image.used()


def write(folder, name, data):
    with open(os.path.join(folder, name), "wb") as file:
        file.write(data)


def samples(folder):
    for name, image in (("p3", p3()), ("season", season()),
                        ("renumbered", renumbered(season())), ("hidden", hidden()),
                        ("eight", eight())):
        write(folder, name + ".trieff", image.used())
        write(folder, name + ".txt", image.listing())


def bench(folder):
    """Writes the images for bench/run. The full image has no room for one more node. That with
    D = 8 and the labels-NUMBER images have room for sixteen more."""
    write(folder, "full-16MiB.trieff", numbered(16777216, 1 << 36).whole())
    write(folder, "eight-16MiB.trieff", numbered(16777216, 1 << 36, d=8, spare=16).whole())
    for most in (1000, 20000, 100000):
        write(folder, "labels-%d.trieff" % most, numbered(16777216, most).used(16))
    write(folder, "listing-65536.trieff", numbered(65536, 1 << 36).used())
    write(folder, "listing-10.trieff", numbered(65536, 10).used())
    letters = [chr(0x400 + i) for i in range(200)]
    text = "".join(letters[i] for i in (9, 31, 77, 120, 150, 163, 181, 190, 199))
    write(folder, "ascending-200.trieff", wide("".join(letters), text))
    random.Random(6).shuffle(letters)
    write(folder, "anyorder-200.trieff", wide("".join(letters), text))


if len(sys.argv) == 3 and sys.argv[1] == "bench":
    bench(sys.argv[2])
else:
    samples(os.path.dirname(os.path.abspath(__file__)))
