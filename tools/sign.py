"""Signs a block that `sawval publish` made with a real key.

Usage: python3 -B tools/sign.py KEYFILE < BLOCK > SIGNED
       python3 -B tools/sign.py --public KEYFILE

KEYFILE has the 64 hex digits of a private key, as `sawtooth keygen` writes them, or as made by

    openssl rand -hex 32 > alice.priv

BLOCK is one frame. Its header gets the key as the block's signer and is signed anew (ECDSA on secp256k1 over SHA-256, as
Sawtooth 1.x signs), so the block has another id; all else stays. --public prints the public key, 66 hex digits.

A block is signed where it stands last: one that was put behind it before names the old id.

The status is 0, 1 where standard input is no such frame or standard output cannot be written, or 2 for other words and
for a KEYFILE that cannot be read or has no key.
"""

import sys

from applied import records, values
from counters import record
from families import frame, number
from signatures import digits_of, private_key, sign

# Of a block's header: the field of its signer.
SIGNER = 3


def again(field, value):
    """The field as it is written."""
    return number(field, value) if isinstance(value, int) else record(field, value)


def with_signer(header, key):
    """The header with this signer, its fields in their order."""
    others = [(field, value) for field, value in records(header) if field != SIGNER]
    return b"".join(again(*each) for each in sorted(others + [(SIGNER, key)], key=lambda each: each[0]))


def signed(block, private):
    header = with_signer(values(block, 1)[-1], digits_of(private))
    parts = b"".join(record(3, batch) for batch in values(block, 3))
    return record(1, header) + record(2, sign(private, header)) + parts


def write(content):
    """Writes to standard output, whose number is 1, and gives the status."""
    try:
        with open(1, "wb", closefd=False) as file:
            file.write(content)
    except OSError as error:
        print(f"sign.py: cannot write: {error.strerror}", file=sys.stderr)
        return 1
    return 0


def main():
    words = sys.argv[1:]
    if words == ["--help"]:
        return write(__doc__.encode())
    if len(words) == 2 and words[0] == "--public":
        return write(f"{digits_of(private_key(words[1]))}\n".encode())
    if len(words) != 1 or words[0].startswith("-"):
        print(__doc__.split("\n\n")[1], file=sys.stderr)
        return 2
    private, data = private_key(words[0]), sys.stdin.buffer.read()
    if len(data) < 4 or len(data) != 4 + int.from_bytes(data[:4], "big"):
        print("sign.py: standard input is not one block in a frame", file=sys.stderr)
        return 1
    return write(frame(signed(data[4:], private)))


if __name__ == "__main__":
    sys.exit(main())
