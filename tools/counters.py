"""Makes the cases counters-* of saw_cases: first blocks of IntegerKey batches.

Written apart from the validator, from the public formats alone, so its answers are expected values.
Usage: python3 tools/counters.py crates/saw_cases/data/cases
"""

import hashlib
import os
import struct
import sys

import usage

KEY = "02" + "1" * 64
LIMIT = 4294967295
FOLDER = sys.argv[1] if len(sys.argv) > 1 else "."


def sha512(data):
    return hashlib.sha512(data).hexdigest()


def mark(message):
    """The development signature."""
    return sha512(KEY.encode() + message)


# Protocol Buffers, "Encoding".


def varint(number):
    out = b""
    while number > 127:
        out += bytes([number & 127 | 128])
        number >>= 7
    return out + bytes([number])


def record(field, value):
    value = value.encode() if isinstance(value, str) else value
    return varint(field << 3 | 2) + varint(len(value)) + value if value else b""


# RFC 8949, section 4.2.1.


def head(major, number):
    if number < 24:
        return bytes([major * 32 + number])
    for argument, size in ((24, 1), (25, 2), (26, 4), (27, 8)):
        if number < 256**size:
            return bytes([major * 32 + argument]) + number.to_bytes(size, "big")
    raise ValueError(number)


def text(string):
    written = string.encode()
    return head(3, len(written)) + written


# State.


def address(name):
    return "1cf126" + sha512(name.encode())[-64:]


def state(values):
    """The entries of names that have different addresses."""
    return {
        bytes.fromhex(address(name)): head(5, 1) + text(name) + head(0, value)
        for name, value in values.items()
    }


def half(encoding):
    """The hash of a node."""
    return sha512(encoding)[:64]


def node(entries, depth, hash_of=half):
    """The encoding of the node above entries that agree in so many bytes of their addresses."""
    if depth == 35:
        (value,) = entries.values()
        return b"\xa2\x61c\xa0\x61v" + head(2, len(value)) + value
    children = {}
    for at, value in entries.items():
        children.setdefault(at[depth], {})[at] = value
    out = b"\xa2\x61c" + head(5, len(children))
    for byte in sorted(children):
        out += text("%02x" % byte) + text(hash_of(node(children[byte], depth + 1, hash_of)))
    return out + b"\x61v\xf6"


def root(values):
    return half(node(state(values), 0))


# Blocks. An operation is a verb, a name and a value.


def operation(verb, name, value):
    """The payload of a transaction."""
    return head(5, 3) + text("Verb") + text(verb) + text("Name") + text(name) + text("Value") + head(0, value)


def transaction(verb, name, value):
    payload = operation(verb, name, value)
    header = record(1, KEY) + record(3, "intkey") + record(4, "1.0")
    header += record(5, address(name)) + record(7, address(name))
    header += record(9, sha512(payload)) + record(10, KEY)
    return mark(header), record(1, header) + record(2, mark(header)) + record(3, payload)


def batch(operations):
    transactions = [transaction(*operation) for operation in operations]
    header = record(1, KEY) + b"".join(record(2, name) for name, _ in transactions)
    body = b"".join(record(3, content) for _, content in transactions)
    return mark(header), record(1, header) + record(2, mark(header)) + body


def block(batches, root_hash, number=0, previous="0" * 16):
    made = [batch(operations) for operations in batches]
    header = b"\x08" + varint(number) if number else b""
    header += record(2, previous) + record(3, KEY)
    header += b"".join(record(4, name) for name, _ in made)
    header += record(5, "Devmode") + record(6, root_hash)
    content = record(1, header) + record(2, mark(header))
    content += b"".join(record(3, part) for _, part in made)
    return mark(header), struct.pack(">I", len(content)) + content


def put(case, stream, output, status):
    os.makedirs(f"{FOLDER}/{case}", exist_ok=True)
    with open(f"{FOLDER}/{case}/stdin", "wb") as file:
        file.write(stream)
    for name, text in [("words", "apply\n"), ("stdout", output), ("stderr", ""), ("status", f"{status}\n")]:
        with open(f"{FOLDER}/{case}/{name}", "w") as file:
            file.write(text)


def committed(case, batches, values):
    root_hash = root(values)
    name, stream = block(batches, root_hash)
    count = sum(len(operations) for operations in batches)
    line = f"0 {name} {root_hash}"
    put(case, stream, f"block 0 committed {line} {len(batches)} {count}\nhead {line}\n", 0)


def refused(case, batches, values, fault):
    _, stream = block(batches, root(values))
    put(case, stream, f"block 0 refused {fault}\nhead none\n", 1)


def main():
    usage.words(__doc__, 1)
    # The program makes a case from outside as it is.
    with open(f"{FOLDER}/intkey-set/stdin", "rb") as file:
        assert block([[("set", "a", 5)]], root({"a": 5}))[1] == file.read()
    committed("counters-inc-to-limit", [[("set", "a", LIMIT - 1), ("inc", "a", 1)]], {"a": LIMIT})
    refused("counters-inc-past-limit", [[("set", "a", LIMIT), ("inc", "a", 1)]], {"a": LIMIT}, "14 BatchInvalid 0 1 109")
    committed("counters-dec-to-0", [[("set", "a", 1), ("dec", "a", 1)]], {"a": 0})
    refused("counters-dec-past-0", [[("set", "a", 0), ("dec", "a", 1)]], {"a": 0}, "14 BatchInvalid 0 1 109")
    committed("counters-inc-0-at-limit", [[("set", "a", LIMIT), ("inc", "a", 0)]], {"a": LIMIT})
    committed("counters-dec-0-at-0", [[("set", "a", 0), ("dec", "a", 0)]], {"a": 0})
    first = [("set", "a", 1), ("set", "b", 300), ("inc", "b", 70000)]
    second = [("inc", "a", 2), ("set", "counter", 5), ("dec", "b", 1)]
    committed("counters-in-two-batches", [first, second], {"a": 3, "b": 70299, "counter": 5})
    failing = [[("set", "a", 1)], [("set", "b", 2), ("inc", "c", 1)]]
    refused("counters-second-batch-fails", failing, {"a": 1}, "14 BatchInvalid 1 1 108")
    many = {f"n{index}": index * 1000 for index in range(100)}
    sets = [("set", name, value) for name, value in many.items()]
    committed("counters-100-names", [sets[:50], sets[50:]], many)
    # Enough transactions for several lanes; the rules are first, and of failed batches the first.
    apart = [[("set", f"n{index}", 1)] for index in range(40)]
    refused("counters-repeated-behind-a-failure", [[("inc", "c", 1)], *apart, apart[0]], {"a": 1}, "13 Static 41 1")
    refused("counters-two-of-many-fail", [*apart[:20], [("inc", "c", 1)], *apart[20:], [("inc", "d", 1)]], {"a": 1}, "14 BatchInvalid 20 0 108")
    refused("counters-root-of-another-state", [[("set", "a", 2)]], {"a": 3}, f"15 Root {root({'a': 2})}")


if __name__ == "__main__":
    main()
