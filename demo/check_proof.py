"""Checks a proof that `sawval prove` wrote, without that program: a client that knows only a state's root.

Usage: python3 -B demo/check_proof.py ROOT ADDRESS FILE

ROOT is 64 hex digits, ADDRESS is 70, and FILE has the lines of `sawval prove --address ADDRESS`. It says what
`sawval check --root ROOT --address ADDRESS --proof FILE` says, with the same status. It needs Python alone.

To check proofs in a program of your own take `check`: of a root, an address and nodes, all bytes, it gives the value that
stands at the address, None where there is no entry, or raises Rejected. ROOT is all that is trusted: who sends the
nodes may lie.
"""

import hashlib
import re
import sys

# An address has 35 bytes. Depth n of the tree is where n of them are passed; values stand at depth 35 alone.
LEAF = 35
MOST = 67_108_864
EMPTY, HASH, FORM, SHAPE, LONG, SHORT = range(1, 7)


class Rejected(Exception):
    """A proof that shows nothing: the number of its first fault and, but for EMPTY and SHORT, the place of the node."""


class NoNode(Exception):
    """Bytes that are no node's encoding."""


# --- nodes ---


def digest(encoding):
    """The hash of a node: the first 32 bytes of SHA-512."""
    return hashlib.sha512(encoding).digest()[:32]


def behind(start, data):
    """What stands behind these bytes, with which the data must begin."""
    if not data.startswith(start):
        raise NoNode
    return data[len(start) :]


def headed(major, data):
    """The number in a CBOR head of this major type, and what stands behind it."""
    info = data[0] & 31 if data else 31
    if not data or data[0] >> 5 != major or info > 27:
        raise NoNode
    size = {24: 1, 25: 2, 26: 4, 27: 8}.get(info, 0)
    number = int.from_bytes(data[1 : 1 + size], "big") if size else info
    # Only the shortest head is taken, so that a node has one encoding, and one hash.
    least = {1: 24, 2: 1 << 8, 4: 1 << 16, 8: 1 << 32}.get(size, 0)
    if len(data) < 1 + size or number < least:
        raise NoNode
    return number, data[1 + size :]


def digits(count, data):
    """The bytes that so many hex digits stand for, and what stands behind them."""
    if not re.fullmatch(rb"[0-9a-f]{%d}" % count, data[:count]):
        raise NoNode
    return bytes.fromhex(data[:count].decode()), data[count:]


def read_node(data):
    """A node from its encoding: its children, a hash for each byte that leads further, and its value or None.

    It is a CBOR map of two keys: `c` (61 63) has the children, `v` (61 76) the value, a byte string or null (f6).
    """
    count, data = headed(5, behind(b"\xa2\x61\x63", data))
    children, last = {}, b""
    for _ in range(count):
        # A child: a text of two digits (62 ..), the byte, and a text of 64 digits (78 40 ..), the hash. Keys rise.
        byte, data = digits(2, behind(b"\x62", data))
        value, data = digits(64, behind(b"\x78\x40", data))
        if byte <= last:
            raise NoNode
        children[byte[0]], last = value, byte
    data = behind(b"\x61\x76", data)
    if data == b"\xf6":
        return children, None
    length, value = headed(2, data)
    if len(value) != length:
        raise NoNode
    return children, value


# --- proofs ---


def check(root, address, nodes):
    """The value at the address in the state of this root, or None where it has no entry."""
    if not nodes:
        raise Rejected(EMPTY)
    # The hash that is due: first the root, then what each node names for the address's next byte.
    due = root
    for index, encoding in enumerate(nodes):
        if digest(encoding) != due:
            raise Rejected(HASH, index)
        try:
            children, value = read_node(encoding)
        except NoNode:
            raise Rejected(FORM, index) from None
        # A node above the leaves has children alone, a leaf a value alone.
        if (value is not None) if index < LEAF else (value is None or children):
            raise Rejected(SHAPE, index)
        due = children.get(address[index]) if index < LEAF else None
        if due is None:
            # It leads no further, so it must be the last: a leaf with its value, or the end of a way without an entry.
            if len(nodes) > index + 1:
                raise Rejected(LONG, index)
            return value
    # The last node leads further, so it shows nothing yet.
    raise Rejected(SHORT)


# --- the program ---


class Fault(Exception):
    """What ends the program before its answer: a status and a word."""


def content(name):
    try:
        with open(name, "rb") as file:
            data = file.read(MOST + 1)
    except FileNotFoundError:
        raise Fault(11, "missing") from None
    except OSError:
        raise Fault(11, "failed") from None
    if len(data) > MOST:
        raise Fault(11, "toolong")
    return data


def nodes_in(data):
    """The nodes of a file, one a line in hex. The last line may lack its end; a file of no bytes has no line."""
    nodes = []
    for number, line in enumerate(data.removesuffix(b"\n").split(b"\n") if data else [], 1):
        if not re.fullmatch(rb"(?:[0-9a-f]{2})+", line):
            raise Fault(11, f"badline {number}")
        nodes.append(bytes.fromhex(line.decode()))
    return nodes


def answer(words):
    """The line for these words, and the status."""
    forms = [r"[0-9a-f]{64}", r"[0-9a-f]{70}", r"(?s:.+)"]
    if len(words) != 3 or not all(map(re.fullmatch, forms, words)):
        raise Fault(2, "words")
    root, address, name = words
    nodes = nodes_in(content(name))
    try:
        value = check(bytes.fromhex(root), bytes.fromhex(address), nodes)
    except Rejected as rejected:
        return " ".join(["REJECTED", *map(str, rejected.args)]), 1
    return "ABSENT" if value is None else f"PRESENT {value.hex()}", 0


def write(line):
    """Writes the line at once to standard output, whose number is 1."""
    try:
        with open(1, "w", encoding="ascii", closefd=False) as file:
            print(line, file=file)
    except OSError:
        raise Fault(5, "write") from None


def main():
    try:
        line, status = answer(sys.argv[1:])
        write(line)
    except Fault as fault:
        status, word = fault.args
        print(f"fault {status} {word}", file=sys.stderr)
    return status


if __name__ == "__main__":
    sys.exit(main())
