"""Follows a chain by its events: prints what the blocks of a growing file tell. It needs Python and the program alone.

Usage: python3 -B demo/follow.py [OPTION ..] FILE [COMMON]

FILE has the blocks, as `sawval` reads them; COMMON are options of `sawval events` (`--attest NAME`, `--workers N`, ..).
The options of this program stand before FILE: all that stands behind it is given to `sawval`.

--type T           events of this type; `sawtooth/state-delta` without it
--key K --value V  only those with an attribute of this key and this value
--command WORDS    what runs the program; `sawval` without it
--state NAME       the file that keeps the ids of the followed blocks, from where one goes on after a stop; one for each wish
--once             looks at FILE once, and not again each second

It prints

    block NUMBER ID TYPE KEY=VALUE ..      an event; of the state's changes instead a line for each, with two spaces first:
      ADDRESS set HEX                          the entry has this value now
      ADDRESS delete                           there is no entry now
    switched behind block NUMBER ID        the head has changed branches; the followed blocks behind this one left it:
    withdrawn block NUMBER ID                  what came of its events is to be undone; the last block is told first

Each event comes at least once: the state is kept when all of a look is printed, so after a stop in between some come again.
A program's status besides 0 and 8 is the status of this one, with the program's notes; 1 is for what fails here (a file
that cannot be read, a line that cannot be written), 2 for invalid arguments and for a file NAME that is no such state.

In a program of your own take `Validator` and `look`.
"""

import argparse
import json
import os
import re
import shlex
import subprocess
import sys
import time
from typing import NamedTuple

COMMIT, DELTA = "sawtooth/block-commit", "sawtooth/state-delta"
LONGEST = 16_777_216
DELETE = 2


class Event(NamedTuple):
    block: str
    kind: str
    attributes: list
    data: bytes


class Look(NamedTuple):
    """How many of the followed blocks the branch still has, its blocks behind these, and their events."""

    kept: int
    new: list
    events: list


class Ended(Exception):
    """The program ended with a status that tells no events: the status and its notes."""


class Lost(Exception):
    """The stream has none of the followed blocks: it is cut, or of another ledger."""


class NoState(Exception):
    """The file of this name has something else than the ids of followed blocks."""


# --- messages (Protocol Buffers, "Encoding") ---


def read_varint(data, at):
    """The number that begins there, and where it ends."""
    value = shift = 0
    while True:
        value |= (data[at] & 127) << shift
        at, shift = at + 1, shift + 7
        if data[at - 1] < 128:
            return value, at


def fields(data):
    """The values of each field of a message of proto/receipts.proto, in order: these have numbers, texts and bytes alone."""
    found, at = {}, 0
    while at < len(data):
        key, at = read_varint(data, at)
        value, at = read_varint(data, at)
        if key & 7 == 2:
            value, at = data[at : at + value], at + value
        found.setdefault(key >> 3, []).append(value)
    return found


def texts(message, *names):
    """The texts of these fields, of which none is repeated."""
    found = fields(message)
    return tuple(found.get(name, [b""])[-1].decode() for name in names)


def event(line):
    """The event of a line of `sawval events`."""
    block, digits = line.split(" ")
    found = fields(bytes.fromhex(digits))
    attributes = [texts(one, 1, 2) for one in found.get(2, [])]
    return Event(block, found.get(1, [b""])[-1].decode(), attributes, found.get(3, [b""])[-1])


def changes(delta):
    """The changes of the state that a block tells: each address with its value, None where there is no entry now."""
    for change in fields(delta.data).get(1, []):
        found = fields(change)
        value = None if found.get(3, [0])[-1] == DELETE else found.get(2, [b""])[-1]
        yield found[1][-1].decode(), value


# --- what the program tells ---


def firsts(events):
    """The first event of each block.

    Under the types `sawtooth/..` it is the block's own. A transaction may add events of these types, too: they stand behind
    it and say nothing of the block.
    """
    found = {}
    for one in events:
        found.setdefault(one.block, one)
    return list(found.values())


class Validator:
    """The program, and the options that each call of it has."""

    def __init__(self, command=("sawval",), common=()):
        self.command, self.common = command, common

    def events(self, stream, kind, known=()):
        """The events of this type in the head's branch, behind a known block; none where that left the branch."""
        words = ["events", *self.common, "--type", kind, *(word for name in known for word in ("--from", name))]
        done = subprocess.run([*self.command, *words], input=stream, capture_output=True)
        if done.returncode not in (0, 8):
            raise Ended(done.returncode, done.stderr.decode(errors="replace"))
        found = [event(line) for line in done.stdout.decode().splitlines()]
        return firsts(found) if kind in (COMMIT, DELTA) else found

    def blocks(self, stream, known=()):
        """The ids of the blocks: each block has an event of the type that is asked for."""
        return [one.block for one in self.events(stream, COMMIT, known)]


def shared(some, others):
    """How many of the first elements are the same."""
    return next((at for at, pair in enumerate(zip(some, others)) if pair[0] != pair[1]), min(len(some), len(others)))


def look(validator, stream, followed, kind=DELTA, filters=()):
    """What a stream tells to one who followed the blocks of these ids, from the first block of the branch on.

    The filters are pairs of a key and a value. Each call of the program is given the same stream, so all is of one head.
    """
    kept, new = len(followed), validator.blocks(stream, followed[-1:])
    if followed and not new:
        # Nothing stands behind the last followed block, or it left the branch. The whole branch tells which.
        branch = validator.blocks(stream)
        kept = shared(followed, branch)
        new = branch[kept:]
        if not kept:
            raise Lost
    found = validator.events(stream, kind, followed[:kept][-1:]) if new else []
    # The filters are applied here: of the events that the program filters the first need not be the block's own.
    return Look(kept, new, [one for one in found if all(pair in one.attributes for pair in filters)])


# --- the file ---


def whole(data):
    """The frames that are there as a whole: the last one may still be in writing."""
    at = 0
    while len(data) - at >= 4:
        length = int.from_bytes(data[at : at + 4], "big")
        if length > LONGEST:
            # It is no frame, which the program is to tell.
            return data
        if len(data) - at - 4 < length:
            break
        at += 4 + length
    return data[:at]


def streams(name, once):
    """The whole frames of the file, each time that it has more of them."""
    size = length = None
    while True:
        if size != os.path.getsize(name):
            with open(name, "rb") as file:
                data = file.read()
            size, stream = len(data), whole(data)
            if len(stream) != length:
                length = len(stream)
                yield stream
        if once:
            return
        time.sleep(1)


def read_state(name):
    """The ids of the followed blocks."""
    if not name or not os.path.exists(name):
        return []
    try:
        with open(name, encoding="ascii") as file:
            followed = json.load(file)
    except ValueError:
        raise NoState(name) from None
    if not isinstance(followed, list) or not all(re.fullmatch("[0-9a-f]{128}", str(one)) for one in followed):
        raise NoState(name)
    return followed


def write_state(name, followed):
    """The old file stays until the new one is written."""
    with open(name + ".new", "w", encoding="ascii") as file:
        json.dump(followed, file, indent=0)
        file.flush()
        os.fsync(file.fileno())
    os.replace(name + ".new", name)


# --- the program ---


def shown(text):
    """The text itself, or with quotes where it might be mistaken."""
    return text if re.fullmatch(r"[\w./:-]+", text, re.ASCII) else json.dumps(text)


def event_lines(number, one):
    start = f"block {number} {one.block} {shown(one.kind)}"
    if one.kind == DELTA:
        ends = ((at, "delete" if value is None else f"set {value.hex()}") for at, value in changes(one))
        return [start, *(f"  {at} {end}" for at, end in ends)]
    pairs = [f"{shown(key)}={shown(value)}" for key, value in one.attributes]
    return [" ".join([start, *pairs, *([f"data={one.data.hex()}"] if one.data else [])])]


def lines(followed, seen):
    """What is printed of a look."""
    if seen.kept < len(followed):
        yield f"switched behind block {seen.kept - 1} {followed[seen.kept - 1]}"
    for number in reversed(range(seen.kept, len(followed))):
        yield f"withdrawn block {number} {followed[number]}"
    # A first block has the number 0, and each other one its parent's plus 1.
    numbers = {name: number for number, name in enumerate(seen.new, seen.kept)}
    for one in seen.events:
        yield from event_lines(numbers[one.block], one)


def write(made):
    """Writes the lines at once to standard output, whose number is 1."""
    try:
        with open(1, "w", encoding="ascii", closefd=False) as file:
            file.writelines(f"{line}\n" for line in made)
    except OSError as error:
        raise OSError(f"cannot write: {error.strerror}") from None


def follow(words):
    validator = Validator(shlex.split(words.command), words.common)
    filters = [(words.key, words.value)] if words.key is not None else []
    followed = read_state(words.state)
    for stream in streams(words.file, words.once):
        seen = look(validator, stream, followed, words.type, filters)
        write(lines(followed, seen))
        now = followed[: seen.kept] + seen.new
        if words.state and now != followed:
            write_state(words.state, now)
        followed = now


def arguments():
    shape = argparse.RawDescriptionHelpFormatter
    parser = argparse.ArgumentParser(description=__doc__, usage=argparse.SUPPRESS, formatter_class=shape, allow_abbrev=False)
    parser.add_argument("--type", default=DELTA, help=argparse.SUPPRESS)
    parser.add_argument("--command", default="sawval", help=argparse.SUPPRESS)
    for name in ("--key", "--value", "--state"):
        parser.add_argument(name, help=argparse.SUPPRESS)
    parser.add_argument("--once", action="store_true", help=argparse.SUPPRESS)
    parser.add_argument("file", metavar="FILE", help=argparse.SUPPRESS)
    common = parser.add_argument("common", metavar="COMMON", nargs=argparse.REMAINDER, help=argparse.SUPPRESS)
    # There may be none; this says so where FILE is missing, too.
    common.required = False
    words = parser.parse_args()
    if (words.key is None) != (words.value is None):
        parser.error("--key and --value come together")
    return words


def main():
    try:
        follow(arguments())
    except Ended as ended:
        status, notes = ended.args
        sys.stderr.write(notes)
        return status if status > 0 else 1
    except Lost:
        print("follow.py: none of the followed blocks is in the stream", file=sys.stderr)
        return 1
    except NoState as named:
        print(f"follow.py: {named} is no state of followed blocks", file=sys.stderr)
        return 2
    except OSError as error:
        print(f"follow.py: {error}", file=sys.stderr)
        return 1
    except KeyboardInterrupt:
        pass
    return 0


if __name__ == "__main__":
    sys.exit(main())
