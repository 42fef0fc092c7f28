"""A processor of the family `names` 1.0, to try and to begin one of your own with. It needs Python alone.

Usage: python3 -B demo/names.py PORT

PORT is that of `sawval apply --listen PORT --remotes N`, which waits for N such processors. This one tries to connect for
ten seconds, serves transactions until the validator ends the link, and then says how many there were. The status is 0,
130 after Ctrl-C, without a line, or 1 with a line on standard error.

A payload is one of the texts `claim NAME`, `give NAME KEY` and `drop NAME`. A name belongs to the key that signed its
claim, which alone may give it to another key, or drop it.
"""

import hashlib

import processor

NAMESPACE = hashlib.sha512(b"names").hexdigest()[:6]


def address_of(name):
    """Where the key that has a name is kept."""
    return NAMESPACE + hashlib.sha512(name.encode()).hexdigest()[:64]


def apply(transaction, state):
    """Runs a transaction of the family."""
    words = transaction.payload.decode(errors="replace").split(" ")
    verb, name = (words + ["", ""])[:2]
    address, signer = address_of(name), transaction.signer.encode()
    owner = state.get(address)
    if (verb, len(words)) == ("claim", 2) and name and not owner:
        state.set(address, signer)
    elif (verb, len(words)) == ("give", 3) and owner == signer and words[2]:
        state.set(address, words[2])
    elif (verb, len(words)) == ("drop", 2) and owner == signer:
        state.delete(address)
    else:
        raise processor.Invalid
    state.event(f"names/{verb}", [("name", name)])


FAMILY = processor.Family("names", "1.0", [NAMESPACE], apply)

if __name__ == "__main__":
    processor.main(FAMILY)
