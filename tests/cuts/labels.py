"""A plain list of labels: what a bench must answer, which writes a store has, and the bytes that
the file must hold. It knows the format from docs/ and nothing of the library."""
import re
import struct

ALPHABET = "0123456789ABCDE-"
LONGEST = 64
WIDTH = 16 * 2 + 4  # bytes of a node
FIRST = 28 + 16  # where node 0 begins

SESSION = [
    ("B04-117-2", 2402),  # a new path
    ("B04-117-1", 2401),  # a path that shares all but its last letter
    ("A01-101-1", 2400),
    ("B04", 16),  # the path is there, nothing stored
    ("B04-117-2", 2409),  # another value
    ("B04-117-2", 2409),  # the same again
    ("C99-1", 0),  # nothing to delete, and no path
    ("B04-117-1", 0),
    ("B04-117-1", 0),  # nothing to delete, with a path
    ("B04-117-12", 70000),  # under a deleted label
    ("B04/117", 5),  # no such letter
    ("0" * 65, 5),  # too long
    ("0123456789ABCDE-" * 4, 4294967295),  # as many writes as there can be
    ("0123456789ABCDE-" * 3 + "0123456789ABCDEE", 66),
    ("0123456789ABCDE-", 8),
    ("B04-117-1", 2403),  # stored again
    ("D", 1),
    ("E-E-E", 0x01020304),
    ("E-E-D-1", 258),
    ("A01-101-1", 0),
    ("A01", 77),
]
ANOTHER = ("5A-5", 99)  # stored after a cut instead of the store that was hit
NEVER = ["A", "B04-117-3", "C99-1", "5", "5A-5-1", "E-E", "--"]  # looked up, never stored
ONE, TWO = [("8-1", 81), ("8-2", 82)], [("9", 9), ("8", 8)]  # what two benches store
ASKED = sorted({a for a, _ in SESSION + [ANOTHER] + ONE + TWO
                if len(a) <= LONGEST and "/" not in a}) + NEVER
ASKING = [f"look {a}" for a in ASKED] + ["count", "list"]


class Labels:
    """The labels with their records. `nodes` has the address of each prefix that has a node; from
    these follow the writes of a store."""

    def __init__(self):
        self.records, self.nodes = {}, {"": 0}

    def copy(self):
        other = Labels()
        other.records, other.nodes = dict(self.records), dict(self.nodes)
        return other

    def place(self, prefix):
        return FIRST + self.nodes[prefix] * WIDTH

    def store(self, label, record):
        """Stores. Returns the offset and length of each write in order, and the line that the
        bench must answer."""
        if any(c not in ALPHABET for c in label):
            return [], f"{label}: refused 10 at 0"
        if not 1 <= len(label) <= LONGEST:
            return [], f"{label}: refused 9 at 0"
        path = [label[: i + 1] for i in range(len(label))]
        missing = [p for p in path if p not in self.nodes]
        if missing and record == 0:
            return [], f"{label} = 0: change 0, writes 0"
        for prefix in missing:
            self.nodes[prefix] = len(self.nodes)
        if missing:
            parent, letter = missing[0][:-1], ALPHABET.index(missing[0][-1])
            writes = [(self.place(p), WIDTH) for p in missing] + [
                (0, 4), (self.place(parent) + 2 * letter, 2)]
        else:
            writes = [(self.place(label) + 16 * 2, 4)]
        change = (record != 0) - (label in self.records)
        self.records[label] = record
        if record == 0:
            del self.records[label]
        return writes, f"{label} = {record}: change {change}, writes {len(writes)}"

    def image(self):
        """The bytes of the image up to U."""
        nodes = [bytearray(WIDTH) for _ in self.nodes]
        for prefix, address in self.nodes.items():
            if prefix:
                struct.pack_into(">H", nodes[self.nodes[prefix[:-1]]],
                                 2 * ALPHABET.index(prefix[-1]), address)
            struct.pack_into(">I", nodes[address], 16 * 2, self.records.get(prefix, 0))
        head = struct.pack(">7I", len(nodes) - 1, 16, 2, 4, len(ALPHABET), 1, LONGEST)
        return head + ALPHABET.encode() + b"".join(nodes)

    def answers(self):
        """The lines that the bench must answer to ASKING."""
        lines = [f"{a}: record {self.records[a]}" if a in self.records else f"{a}: absent"
                 for a in ASKED]
        ordered = sorted(self.records, key=lambda a: [ALPHABET.index(c) for c in a])
        return (lines + [f"labels: {len(ordered)}"]
                + [f"{a} {self.records[a]}" for a in ordered] + ["end of the list"])


def commands(stores):
    return [f"store {label} {record}" for label, record in stores]


def told(labels, stores):
    """The lines that the bench must answer to the stores, and the labels after them."""
    labels = labels.copy()
    return [labels.store(*s)[1] for s in stores], labels


def lines_of(text):
    """The lines of an answer, without the words that explain a refusal."""
    return [re.sub(r"(: refused \d+ at \d+): .*", r"\1", line) for line in text.splitlines()]


def used(image):
    """U by the head of an image; 0 if it has no head."""
    if len(image) < 28:
        return 0
    g, n, a, d, f = struct.unpack_from(">5I", image)
    return 28 + f + (g + 1) * (n * a + d)
