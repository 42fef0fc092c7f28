"""Compares `sawval check` with demo/check_proof.py over drawn proofs, good ones and ones that were changed.

Usage, from the top of the repository: python3 -B tools/proofs.py PROGRAM [--cases N] [--seed N] [--jobs N]

It is run by hand: the gate has the cases of saw_cases. Each case draws a map, makes the proof of an address by
tools/counters.py, and changes it, mostly: bits of nodes, their heads, children and values, also with the nodes above
and the root made to fit; lines that are dropped, doubled, swapped, cut or no line of a node; the address; the root. A
good proof must show the map's entry, and a proof that is changed must never show another one under the map's root.

Both are run with the same words. It prints each case that differs, with the words and the file, and then how often
each answer came and how many agreed; the status is 0 only if all did. The seed is printed: with it all comes again.
"""

import argparse
import collections
import os
import random
import subprocess
import sys
import tempfile
from concurrent.futures import ThreadPoolExecutor

from counters import half, head, node, text

HERE = os.path.dirname(os.path.abspath(__file__))
CHECKER = os.path.join(HERE, "..", "demo", "check_proof.py")
LEAF = 35


# --- good proofs ---


def near(draw, address):
    """An address that agrees with this one up to some byte."""
    at = draw.randrange(LEAF)
    return address[:at] + draw.randbytes(LEAF - at)


def drawn_map(draw):
    """Entries of which many agree in first bytes; some maps have a wide node."""
    entries, addresses = {}, [draw.randbytes(LEAF)]
    for _ in range(draw.choice([0, 1, 2, 5, 20])):
        addresses.append(near(draw, draw.choice(addresses)))
        entries[addresses[-1]] = draw.randbytes(draw.choice([0, 1, 5, 23, 24, 255, 256, 70_000]))
    if draw.random() < 0.2:
        first, at = draw.choice(addresses), draw.randrange(LEAF)
        for byte in draw.sample(range(256), draw.choice([23, 24, 255, 256])):
            entries[first[:at] + bytes([byte]) + first[at + 1 :]] = draw.randbytes(3)
    return entries


def proof(entries, address):
    """The nodes at the address's first 0, 1, 2, .. bytes, up to the first that does not lead further."""
    nodes = []
    for depth in range(LEAF + 1):
        entries = {at: value for at, value in entries.items() if at[:depth] == address[:depth]}
        if depth and not entries:
            break
        nodes.append(node(entries, depth))
    return nodes


# --- changed nodes ---


def put(data, at, new, old=0):
    """The bytes with others in the place of so many at a place."""
    return data[:at] + new + data[at + old :]


def first_child(data):
    """Where a node's encoding has its first child, or would have it."""
    return 3 + (2 if data[3] == 0xB8 else 3 if data[3] == 0xB9 else 1)


def child_at(draw, data):
    """The place of a child in a node's encoding; where it has none, that of the first."""
    first = first_child(data)
    count = (len(data) - first) // 69
    return first + 69 * draw.randrange(max(count, 1))


def with_bit(draw, data):
    at = draw.randrange(len(data))
    return put(data, at, bytes([data[at] ^ 1 << draw.randrange(8)]), 1)


def with_capitals(draw, data):
    at = child_at(draw, data)
    return put(data, at, data[at : at + 69].upper(), 69)


def with_child(draw, data):
    """One more child, in front of the others."""
    byte, name = draw.randbytes(1).hex(), draw.randbytes(32).hex()
    return put(with_count(data, 1), first_child(data), text(byte) + text(name))


def with_child_twice(draw, data):
    at = child_at(draw, data)
    return put(with_count(data, 1), at, data[at : at + 69])


def with_children_swapped(draw, data):
    at = child_at(draw, data)
    return put(data, at, data[at + 69 : at + 138] + data[at : at + 69], 138)


def without_child(draw, data):
    return put(with_count(data, -1), child_at(draw, data), b"", 69)


def with_count(data, more):
    """Another count of children, where its head has one byte."""
    return put(data, 3, bytes([data[3] + more & 255]), 1)


def with_long_head(draw, data):
    """The count of children, or the length of a value, in a longer head than is due."""
    ending = data.rfind(b"\x61v") + 2
    at = draw.choice([3, ending])
    more = draw.choice([b"\x18", b"\x19\x00", b"\x1a\x00\x00\x00", b"\x1b" + bytes(7)])
    return put(data, at, bytes([data[at] & 0xE0 | more[0]]) + more[1:] + bytes([data[at] & 31]), 1)


def with_value(draw, data):
    """A value in the place of what stands for it; also one of another kind, or none."""
    ending = data.rfind(b"\x61v") + 2
    size = draw.randrange(40)
    values = [head(2, size) + bytes(size), head(3, 1) + b"x", b"\xf6", b"\xf7", b"\x40", b"\x00", b""]
    return data[:ending] + draw.choice(values)


def with_rest(draw, data):
    return data + draw.randbytes(draw.randrange(1, 3))


def cut(draw, data):
    return data[: draw.randrange(len(data))]


def other_bytes(draw, data):
    return draw.randbytes(draw.randrange(1, 80))


IN_NODES = [
    with_bit,
    with_capitals,
    with_child,
    with_child,
    with_child_twice,
    with_children_swapped,
    without_child,
    with_long_head,
    with_value,
    with_value,
    with_rest,
    cut,
    other_bytes,
]


def made_to_fit(nodes, changed):
    """The nodes with each hash of a changed one in the node above, and their root."""
    made = [*changed]
    for at in range(len(nodes) - 1, 0, -1):
        made[at - 1] = made[at - 1].replace(half(nodes[at]).encode(), half(made[at]).encode())
    return made, half(made[0])


def with_changed_node(draw, nodes, root):
    """A node changed; as often as not the nodes above and the root fit."""
    at = draw.choice([0, len(nodes) - 1, draw.randrange(len(nodes))])
    changed = put_line(nodes, at, [draw.choice(IN_NODES)(draw, nodes[at]) or b"\x00"], 1)
    return made_to_fit(nodes, changed) if draw.random() < 0.7 else (changed, root)


# --- changed lines ---


def put_line(lines, at, new, old=0):
    return [*lines[:at], *new, *lines[at + old :]]


def with_changed_lines(draw, nodes):
    at, count = draw.randrange(len(nodes)), draw.randrange(1, 3)
    some = nodes[at : at + count]
    return draw.choice(
        [
            put_line(nodes, at, [], count),
            put_line(nodes, at, some),
            put_line(nodes, at, some[::-1], count),
            nodes[:at],
            [*nodes, draw.choice(nodes)],
            nodes[: len(nodes) - 1],
        ]
    )


def with_bad_line(draw, lines):
    """A line that is none of a node, among the others."""
    line = draw.choice([*lines, b"00"])
    bad = draw.choice([b"", line[1:], line[:-1], line + b"\r", line.upper(), b" " + line, b"0x", line + b"00", b"\xff\xff"])
    at = draw.randrange(len(lines) + 1)
    return put_line(lines, at, [bad], draw.randrange(2))


def as_file(draw, nodes):
    """The lines of nodes; some with a bad line, some without the last byte 10, some with one more."""
    lines = [data.hex().encode() for data in nodes]
    if draw.random() < 0.1:
        lines = with_bad_line(draw, lines)
    return b"\n".join(lines) + draw.choice([b"\n"] * 8 + [b"", b"\n\n"]) if lines else b""


# --- cases ---


class Drawn:
    """Words and a file; whether the proof is a good one, and what the map of the root shows, where a map is known."""

    def __init__(self, draw):
        entries = drawn_map(draw)
        known = draw.choice([*entries, draw.randbytes(LEAF)])
        address = draw.choice([known, near(draw, known)])
        nodes = proof(entries, address)
        right = root = half(nodes[0])
        how = draw.randrange(6)
        if how == 0:
            nodes = with_changed_lines(draw, nodes)
        elif how == 1:
            address = draw.choice([near(draw, address), draw.choice([*entries, address])])
        elif how == 2:
            at = draw.randrange(64)
            root = put(root.encode(), at, draw.choice("0123456789abcdef").encode(), 1).decode()
        elif how > 3:
            nodes, root = with_changed_node(draw, nodes, root)
        self.root, self.address, self.file = root, address.hex(), as_file(draw, nodes)
        # Under the map's root nothing is shown but what the map has.
        held = entries.get(address)
        self.shown = None if root != right else "ABSENT\n" if held is None else f"PRESENT {held.hex()}\n"
        self.is_good = how == 3 and self.file == b"".join(data.hex().encode() + b"\n" for data in nodes)


def said(words):
    ran = subprocess.run(words, stdin=subprocess.DEVNULL, capture_output=True, text=True)
    return ran.stdout, ran.stderr, ran.returncode


def kind(answer):
    """What came: the first word of a line, of a rejection its number too, of a fault all but its line's number."""
    output, notes, _ = answer
    words = (output or notes).split()
    return " ".join(words[:2] if output.startswith("REJECTED") else words[:1] if output else words[:3])


def tried(program, drawn):
    """What came, and what is wrong with it, if something is."""
    with tempfile.NamedTemporaryFile() as file:
        file.write(drawn.file)
        file.flush()
        ours = said([program, "check", "--root", drawn.root, "--address", drawn.address, "--proof", file.name])
        others = said([sys.executable, "-B", CHECKER, drawn.root, drawn.address, file.name])
    wrong = []
    if ours != others:
        wrong.append(f"the program says {ours}, the client {others}")
    if drawn.is_good and ours != (drawn.shown, "", 0):
        wrong.append(f"of a good proof the program says {ours}, for {drawn.shown!r}")
    if drawn.shown and ours[2] == 0 and ours[0] != drawn.shown:
        wrong.append(f"under the map's root the program says {ours[0]!r}, for {drawn.shown!r}")
    return kind(ours), wrong


def arguments():
    shape = argparse.RawDescriptionHelpFormatter
    parser = argparse.ArgumentParser(description=__doc__, formatter_class=shape, usage=argparse.SUPPRESS)
    parser.add_argument("program", metavar="PROGRAM", type=os.path.abspath)
    parser.add_argument("--cases", type=int, default=1000)
    parser.add_argument("--seed", type=int, default=random.randrange(1 << 32))
    parser.add_argument("--jobs", type=int, default=2)
    return parser.parse_args()


def main():
    given = arguments()
    drawn = [Drawn(random.Random(f"{given.seed} {number}")) for number in range(given.cases)]
    came, agreed = collections.Counter(), 0
    with ThreadPoolExecutor(given.jobs) as pool:
        for case, (what, wrong) in zip(drawn, pool.map(lambda case: tried(given.program, case), drawn)):
            came[what] += 1
            agreed += not wrong
            for line in wrong:
                print(f"{line}\n  root {case.root}, address {case.address}, file {case.file!r}", flush=True)
    for what, count in sorted(came.items()):
        print(f"{count} {what}")
    print(f"seed {given.seed}: {agreed} of {given.cases} agreed")
    return agreed != given.cases


if __name__ == "__main__":
    sys.exit(main())
