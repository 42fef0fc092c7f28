"""Tests real signatures, and writes the attestation list that `sawval --attest` reads.

Usage: python3 -B tools/attest.py [--batches LIST].. [STREAM].. > attested

Each STREAM has blocks in frames, as `sawval apply` reads them, and each LIST is a batch list, as `sawval publish --batches`
reads it; `-` is standard input. Every signature of a block, a batch and a transaction is tested: ECDSA on secp256k1 over
the SHA-256 of the header's bytes, as Sawtooth 1.x signs. A good one gives a line; what is not good is left out and named on
standard error with its place, counted from 0:

    STREAM block 2 batch 0 transaction 4: the signature is not the key's over these bytes

The last line on standard error has the counts, and says how many are development marks, which no real key made. The
status is 0 where all are good, 1 where some are not, and 2 where a file cannot be read or is no stream or list, or a
line cannot be written. A line that stands already is not written again.
"""

import argparse
import hashlib
import sys

from applied import values
from signatures import fault

# Fields of headers: who signed a block, a batch and a transaction.
BLOCK, BATCH, TRANSACTION = 3, 1, 10


class Unread(Exception):
    """Why a file is not read."""


def content(name):
    try:
        if name == "-":
            return sys.stdin.buffer.read()
        with open(name, "rb") as file:
            return file.read()
    except OSError as error:
        raise Unread(error.strerror) from None


def frames(data):
    """The blocks of a stream."""
    at = 0
    while at < len(data):
        size = int.from_bytes(data[at : at + 4], "big")
        block, at = data[at + 4 : at + 4 + size], at + 4 + size
        if at > len(data):
            raise Unread("it ends within a frame")
        yield block


def text(message, field):
    return (values(message, field) or [b""])[-1].decode("utf-8", "replace")


def batch_parts(batch, place):
    """The signed messages of a batch, each with its place and the field of its signer."""
    yield f"{place}batch", batch, BATCH
    for at, transaction in enumerate(values(batch, 3)):
        yield f"{place}batch transaction {at}", transaction, TRANSACTION


def numbered(parts, number):
    for place, message, field in parts:
        yield place.replace("batch", f"batch {number}", 1), message, field


def stream_parts(data):
    for number, block in enumerate(frames(data)):
        yield f"block {number}", block, BLOCK
        for at, batch in enumerate(values(block, 3)):
            yield from numbered(batch_parts(batch, f"block {number} "), at)


def list_parts(data):
    for at, batch in enumerate(values(data, 1)):
        yield from numbered(batch_parts(batch, ""), at)


class Attested:
    """The lines that were written, how many messages were good and not good, and how many of these have marks."""

    def __init__(self, out):
        self.out, self.lines, self.good, self.bad, self.marks = out, set(), 0, 0, 0

    def test(self, name, place, message, field):
        header = (values(message, 1) or [b""])[-1]
        key, signature = text(header, field), text(message, 2)
        wrong = fault(key, signature, header)
        if wrong:
            self.bad += 1
            self.marks += signature == hashlib.sha512(key.encode() + header).hexdigest()
            print(f"{name} {place}: {wrong}", file=sys.stderr)
            return
        self.good += 1
        line = f"{key} {signature} {hashlib.sha512(header).hexdigest()}"
        if line not in self.lines:
            self.lines.add(line)
            print(line, file=self.out)

    def read(self, name, parts):
        data, before = content(name), self.good + self.bad
        try:
            for place, message, field in parts(data):
                self.test(name, place, message, field)
        except (IndexError, ValueError, TypeError):
            raise Unread("it is no protobuf message") from None
        if data and self.good + self.bad == before:
            raise Unread("nothing in it is signed")

    def counts(self):
        marks = f"; {self.marks} of these are development marks, which no real key made" if self.marks else ""
        return f"{self.good} signatures are good, {self.bad} are not{marks}"


def arguments():
    shape = argparse.RawDescriptionHelpFormatter
    parser = argparse.ArgumentParser(
        description=__doc__, usage=argparse.SUPPRESS, formatter_class=shape, allow_abbrev=False
    )
    parser.add_argument("--batches", action="append", default=[], metavar="LIST", help=argparse.SUPPRESS)
    parser.add_argument("streams", nargs="*", metavar="STREAM", help=argparse.SUPPRESS)
    given = parser.parse_args()
    if not given.batches and not given.streams:
        parser.error("no STREAM and no LIST is named")
    return given


def main():
    given = arguments()
    named = [(name, list_parts) for name in given.batches] + [(name, stream_parts) for name in given.streams]
    try:
        # Standard output, whose number is 1.
        with open(1, "w", encoding="ascii", closefd=False) as out:
            attested = Attested(out)
            for name, parts in named:
                attested.read(name, parts)
    except Unread as why:
        print(f"{name}: {why}", file=sys.stderr)
        return 2
    except OSError as error:
        print(f"cannot write: {error.strerror}", file=sys.stderr)
        return 2
    print(attested.counts(), file=sys.stderr)
    return 1 if attested.bad else 0


if __name__ == "__main__":
    sys.exit(main())
