"""Makes the cases *-applied of saw_cases: streams of one first block under `apply`.

What is expected is read from the block itself (id, root, counts), so it must be a block that is accepted.
Usage: python3 tools/applied.py CASE STREAM crates/saw_cases/data/cases
"""

import os
import struct
import sys

import usage


def varint(data, at):
    number = shift = 0
    while True:
        byte = data[at]
        number |= (byte & 127) << shift
        at, shift = at + 1, shift + 7
        if byte < 128:
            return number, at


def records(data):
    """The fields of a message with their values (Protocol Buffers, "Encoding")."""
    at = 0
    while at < len(data):
        key, at = varint(data, at)
        if key & 7 == 0:
            value, at = varint(data, at)
        else:
            size, at = (8, at) if key & 7 == 1 else (4, at) if key & 7 == 5 else varint(data, at)
            value, at = data[at : at + size], at + size
        yield key >> 3, value


def values(data, field):
    return [value for number, value in records(data) if number == field]


def line(frame):
    """What is said of the block and of the head."""
    header = values(frame, 1)[-1]
    batches = values(frame, 3)
    transactions = sum(len(values(batch, 3)) for batch in batches)
    number = (values(header, 1) or [0])[-1]
    record = f"{number} {values(frame, 2)[-1].decode()} {values(header, 6)[-1].decode()}"
    return f"block 0 committed {record} {len(batches)} {transactions}\nhead {record}\n"


def main():
    case, source, folder = usage.words(__doc__, 3)
    with open(source, "rb") as file:
        stream = file.read()
    (length,) = struct.unpack(">I", stream[:4])
    if len(stream) != 4 + length:
        raise SystemExit("not one frame")
    made = {"words": b"apply\n", "stdin": stream, "stdout": line(stream[4:]).encode(), "stderr": b"", "status": b"0\n"}
    os.makedirs(os.path.join(folder, case), exist_ok=True)
    for name, content in made.items():
        with open(os.path.join(folder, case, name), "wb") as file:
            file.write(content)


if __name__ == "__main__":
    main()
