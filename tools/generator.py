"""Makes the streams of the command `generate`: blocks of IntegerKey batches that all apply.

Written apart from the validator, from the public formats alone.
Usage: python3 tools/generator.py START BLOCKS BATCHES CONFLICTS > STREAM
"""

import os
import struct
import sys

sys.path.insert(0, os.path.dirname(os.path.abspath(__file__)))

import counters
import usage
from counters import address, head, record, sha512, text, varint

KEY = "02" + "0" * 64


def mark(message):
    """The development signature of the program's own key."""
    return sha512(KEY.encode() + message)


class Tree:
    """The tree of a state, of which only the changed paths are hashed anew. Nodes are shared by later trees."""

    def __init__(self, children=None, value=None):
        self.children = children or {}
        self.value = value
        self.hash = counters.half(self.encoding())

    def encoding(self):
        """The encoding of the node."""
        if self.value is not None:
            return b"\xa2\x61c\xa0\x61v" + head(2, len(self.value)) + self.value
        out = b"\xa2\x61c" + head(5, len(self.children))
        for byte in sorted(self.children):
            out += text("%02x" % byte) + text(self.children[byte].hash)
        return out + b"\x61v\xf6"

    def with_entries(self, entries):
        """The tree with entries at the rests of their addresses."""
        if b"" in entries:
            return Tree(value=entries[b""])
        below = {}
        for at, value in entries.items():
            below.setdefault(at[0], {})[at[1:]] = value
        return Tree(self.children | {byte: self.children.get(byte, EMPTY).with_entries(group) for byte, group in below.items()})


EMPTY = Tree()


def grown(tree, values):
    """The tree in which these names have these values."""
    return tree.with_entries(counters.state(values))


class Draws:
    """The numbers of the generator."""

    def __init__(self, start):
        self.state = start

    def draw(self):
        """The next number."""
        self.state = (self.state * 6364136223846793005 + 1442695040888963407) % 2**64
        return self.state >> 33


def operations(block, batch, draws, conflicts):
    """The two operations of a batch."""
    p, q = draws.draw(), draws.draw()
    name = f"n{batch}"
    first = ("set", name, p % 1000) if block == 0 else ("inc", name, p % 10)
    if block == 0 and batch == 0:
        return first, ("set", "hot", 0)
    return first, ("inc", "hot" if q % 100 < conflicts else name, 1)


def transaction(operation, nonce):
    """The id of a transaction and its message."""
    payload = counters.operation(*operation)
    at = address(operation[1])
    header = record(1, KEY) + record(3, "intkey") + record(4, "1.0") + record(5, at)
    header += record(6, nonce) + record(7, at) + record(9, sha512(payload)) + record(10, KEY)
    return mark(header), record(1, header) + record(2, mark(header)) + record(3, payload)


def batch_of(made):
    """The id of a batch of these transactions and its message."""
    header = record(1, KEY) + b"".join(record(2, name) for name, _ in made)
    return mark(header), record(1, header) + record(2, mark(header)) + b"".join(record(3, part) for _, part in made)


def block_of(number, previous, made, root):
    """The id of a block of these batches and its frame."""
    header = (b"\x08" + varint(number) if number else b"") + record(2, previous) + record(3, KEY)
    header += b"".join(record(4, name) for name, _ in made) + record(5, "Devmode") + record(6, root)
    content = record(1, header) + record(2, mark(header)) + b"".join(record(3, part) for _, part in made)
    return mark(header), struct.pack(">I", len(content)) + content


def blocks_of(start, blocks, batches, conflicts):
    """The id, the root and the frame of each block of the stream."""
    draws, values, tree, previous = Draws(start), {}, EMPTY, "0" * 16
    for block in range(blocks):
        made, changed = [], {}
        for batch in range(batches):
            both = operations(block, batch, draws, conflicts)
            for verb, name, number in both:
                values[name] = changed[name] = number + (values[name] if verb == "inc" else 0)
            made.append(batch_of([transaction(each, f"{block}/{batch}/{at}") for at, each in enumerate(both)]))
        tree = grown(tree, changed)
        previous, frame = block_of(block, previous, made, tree.hash)
        yield previous, tree.hash, frame


def frames(start, blocks, batches, conflicts):
    """The frames of the stream."""
    return (frame for _, _, frame in blocks_of(start, blocks, batches, conflicts))


def main():
    for frame in frames(*(int(word) for word in usage.words(__doc__, 4))):
        sys.stdout.buffer.write(frame)


if __name__ == "__main__":
    main()
