#!/usr/bin/env python3
"""Writes the images of bench/run that are not made by stores alone, into the folder that already
has those of samples/make.py: links that do not rise, other bounds in the head, images refused.

images.py FOLDER
"""
import os
import random
import struct
import sys

folder = sys.argv[1]


def renumbered(image, seed):
    """The image with its nodes at the addresses 1 to G in another order. The root stays."""
    g, n, a, d, f = struct.unpack(">5I", image[:20])
    width, first, links = n * a + d, 28 + f, n * a
    to = list(range(1, g + 1))
    random.Random(seed).shuffle(to)
    to.insert(0, 0)
    body = bytearray((g + 1) * width)
    for node in range(g + 1):
        at = first + node * width
        fresh = bytearray(image[at:at + width])
        if any(fresh[:links]):
            for link in range(0, links, a):
                old = int.from_bytes(fresh[link:link + a], "big")
                fresh[link:link + a] = to[old].to_bytes(a, "big")
        body[to[node] * width:(to[node] + 1) * width] = fresh
    return image[:first] + body + image[first + len(body):]


def bounded(image, least, most):
    """The image with other bounds for the lengths of its keys."""
    return image[:20] + struct.pack(">2I", least, most) + image[28:]


def scattered(image, labels, seed):
    """The head of an image with N = 16, A = 3, D = 4, and labels of nine letters drawn at random.
    After some letters a label has nodes of its own, so most nodes have one child."""
    draw, links, values = random.Random(seed), [[0] * 16], {}
    for label in range(labels):
        node = 0
        for _ in range(9):
            letter = draw.randrange(16)
            if links[node][letter] == 0:
                links[node][letter] = len(links)
                links.append([0] * 16)
            node = links[node][letter]
        values[node] = label + 1
    body = b"".join(b"".join(link.to_bytes(3, "big") for link in own)
                    + values.get(node, 0).to_bytes(4, "big") for node, own in enumerate(links))
    return struct.pack(">I", len(links) - 1) + image[4:44] + body


def chain(room):
    """A chain of as many nodes as there is room for, N = 1, A = 3, D = 1. The root links to G, and
    every other node to the one before it. Each has the value 1, down to the depth max."""
    g, most = (room - 28) // 4 - 1, 64
    body = b"".join((link << 8 | (node == 0 or node > g - most)).to_bytes(4, "big")
                    for node, link in enumerate([g, *range(g)]))
    return struct.pack(">7I", g, 1, 3, 1, 0, 0, most) + body


def ring():
    """Two nodes that link to each other, and no link from the root."""
    return struct.pack(">7I", 2, 3, 1, 1, 0, 0, 3) + bytes.fromhex("000000000200000001000000")


def hidden():
    """A chain from the root to 3, 2 and 1, with data in these. Only the depth of 2 is in min..max,
    so the lowest node with hidden data is the deepest."""
    return struct.pack(">7I", 3, 1, 1, 1, 0, 2, 2) + bytes.fromhex("0300000701070207")


def read(name):
    with open(os.path.join(folder, name + ".trieff"), "rb") as file:
        return file.read()


for name, image in (("renumbered-16MiB", renumbered(read("full-16MiB"), 3)),
                    ("renumbered-65536", renumbered(read("listing-65536"), 3)),
                    ("nines-16MiB", bounded(read("full-16MiB"), 9, 9)),
                    ("scattered-40000", scattered(read("labels-1000"), 40000, 3)),
                    ("chain-falling", chain(16777216)), ("ring", ring()), ("hidden", hidden())):
    with open(os.path.join(folder, name + ".trieff"), "wb") as file:
        file.write(image)
