"""Makes the cases of long batch lists of saw_cases: batches that find no room, and lists that are too long.

Written apart from the validator, from the public formats alone, so its answers are expected values. What is long is
zeros or a part that comes again and again. `zeros` beside a case has two numbers for each run of zeros, one a line: a
place in the stored list and how many. `repeats` has three: where a part begins and ends there, and how often it stands.
Usage: python3 tools/rooms.py crates/saw_cases/data/cases
"""

import os
import re

import generator
import usage
from counters import address, head, record, sha512, text
from generator import KEY, batch_of, block_of, grown, mark

LONGEST_LIST = 16777216
ROOM = 12582912
MOST_TRANSACTIONS = 20000


def transaction(payload, nonce):
    """The id of an IntegerKey transaction that declares the address of `a`, and its message."""
    at = address("a")
    header = record(1, KEY) + record(3, "intkey") + record(4, "1.0") + record(5, at)
    header += record(6, nonce) + record(7, at) + record(9, sha512(payload)) + record(10, KEY)
    return mark(header), record(1, header) + record(2, mark(header)) + record(3, payload)


def short_transaction(payload):
    """The same of one that declares no address."""
    header = record(1, KEY) + record(3, "intkey") + record(4, "1.0") + record(9, sha512(payload)) + record(10, KEY)
    return mark(header), record(1, header) + record(2, mark(header)) + record(3, payload)


def batch(payload, nonce):
    """The id of a batch of one transaction, and its message."""
    return batch_of([transaction(payload, nonce)])


def set_to(value):
    return head(5, 3) + text("Verb") + text("set") + text("Name") + text("a") + text("Value") + head(0, value)


def sized(size, nonce):
    """A batch of so many bytes, whose payload is zeros."""
    more = size
    while len(batch(bytes(more), nonce)[1]) > size:
        more -= len(batch(bytes(more), nonce)[1]) - size
    made = batch(bytes(more), nonce)
    assert len(made[1]) == size
    return made


def without_zeros(content):
    """The bytes without their long runs of zeros, and where these stand."""
    runs, stored, done = [], b"", 0
    for run in re.finditer(rb"\0{1000,}", content):
        stored += content[done : run.start()]
        runs += [len(stored), len(run.group())]
        done = run.end()
    return stored + content[done:], runs


def without_repeats(content, parts):
    """The bytes in which these parts stand once, in this order, where they come again and again; and where they stand."""
    repeats, stored, done = [], b"", 0
    for part in parts:
        run = re.compile(b"(?:" + re.escape(part) + b"){100,}").search(content, done)
        stored += content[done : run.start()]
        repeats += [len(stored), len(stored) + len(part), len(run.group()) // len(part)]
        stored += part
        done = run.end()
    return stored + content[done:], repeats


def zeros_of(count):
    """A batch of so many transactions, whose payloads are zeros, each more of them."""
    return batch_of([short_transaction(bytes(more)) for more in range(2, count + 2)])


def put(folder, case, content, output, notes, status, again=()):
    """Stores a case. Runs of zeros in the list are cut out, and the parts that come again stand once."""
    once, repeats = without_repeats(content, again)
    stored, runs = without_zeros(once)
    os.makedirs(f"{folder}/{case}/files", exist_ok=True)
    parts = {"files/list": stored, "stdin": b"", "stdout": output, "words": b"publish\n--batches\nlist\n"}
    for name, numbers in ("zeros", runs), ("repeats", repeats):
        parts |= {name: "".join(f"{number}\n" for number in numbers).encode()} if numbers else {}
    parts |= {"stderr": notes.encode(), "status": f"{status}\n".encode()}
    for name, part in parts.items():
        with open(f"{folder}/{case}/{name}", "wb") as file:
            file.write(part)


def listed(batches):
    """The list of batches."""
    return b"".join(record(1, message) for _, message in batches)


def first_block(batches, values):
    """The frame of a first block."""
    return block_of(0, "0" * 16, batches, grown(generator.EMPTY, values).hash)[1]


def main():
    (folder,) = usage.words(__doc__, 1)
    small = batch(set_to(5), "small")
    early = "batch 0 dropped invalid 0 101\n"
    # A batch that finds no room takes none: the smaller one behind it finds some.
    wide = [sized(7000000, "first"), sized(7000000, "second"), small]
    output = first_block([small], {"a": 5})
    put(folder, "publish-no-room", listed(wide), output, early + "batch 1 dropped room\n", 0)
    # The last byte of the room is taken, and one more is too much.
    rest = ROOM - len(small[1])
    put(folder, "publish-room-filled", listed([sized(rest, "first"), small]), output, early, 0)
    full = [sized(rest + 1, "first"), small]
    put(folder, "publish-room-one-byte-short", listed(full), b"", early + "batch 1 dropped room\n", 1)
    # A batch that comes again and again takes their room, though only its first is run: one more transaction finds room,
    # and the next none.
    again, filling = zeros_of(20), zeros_of(19)
    often = (MOST_TRANSACTIONS - 20) // 20
    last, late = batch(set_to(5), "last"), batch(set_to(6), "late")
    notes = early + "".join(f"batch {place} dropped static 1\n" for place in range(1, often))
    notes += f"batch {often} dropped static 2 0\nbatch {often + 2} dropped room\n"
    batches = listed([again] * often + [filling, last, late])
    put(folder, "publish-no-room-for-transactions", batches, first_block([last], {"a": 5}), notes, 0, [listed([again])])
    put(folder, "publish-list-too-long", bytes(LONGEST_LIST + 1), b"", "fault 11 toolong\n", 11)
    put(folder, "publish-list-longest", bytes(LONGEST_LIST), b"", "fault 11 badlist\n", 11)


if __name__ == "__main__":
    main()
