"""Makes the cases stations-* of saw_cases: blocks for external processors of the family `case_kv`, two and four of them.

The family is that of crates/saw_cases/src/stations.rt: a payload is `set ADDRESS VALUE`, `copy FROM TO` (of an address
without an entry it copies `none`), or anything else, which is refused. What is expected comes from the serial model
below and from the formats alone, and never from the validator: batches one after another, each wholly or not at all.
Usage: python3 -B tools/stations.py crates/saw_cases/data/cases
"""

import os
import sys

import usage
from counters import half, node, record, sha512
from families import frame, number, signed

# The key of development, by which saw_cases signs candidates too.
KEY = "02" + "0" * 64
NO_BLOCK = "0" * 16
FAMILY, VERSION = "case_kv", "1.0"
DEPENDENCY_FAILED, REFUSED = 3, 5
PROCESSORS = (2, 4)


def address(name):
    return sha512(FAMILY.encode())[:6] + sha512(name.encode())[:64]


# --- transactions, batches and blocks ---


class Transaction:
    """A line of the family: its names become addresses. `behind` are transactions that it depends on."""

    def __init__(self, line, nonce, behind=()):
        verb, *rest = line.split(" ")
        names = rest[:1] if verb == "set" else rest
        self.places = [address(name) for name in names]
        self.payload = " ".join([verb, *self.places, *rest[len(names) :]])
        self.behind = [tx.id for tx in behind]
        header = record(1, KEY) + b"".join(record(2, other) for other in self.behind)
        header += record(3, FAMILY) + record(4, VERSION) + b"".join(record(5, at) for at in self.places[:1])
        header += record(6, nonce) + b"".join(record(7, at) for at in self.places[-1:])
        header += record(9, sha512(self.payload.encode())) + record(10, KEY)
        self.id, self.written = signed(KEY, header, record(3, self.payload))


class Batch:
    def __init__(self, *txs):
        self.txs = txs
        header = record(1, KEY) + b"".join(record(2, tx.id) for tx in txs)
        self.id, self.written = signed(KEY, header, b"".join(record(3, tx.written) for tx in txs))


def root(state):
    return half(node({bytes.fromhex(at): value for at, value in state.items()}, 0) if state else b"\xa2\x61c\xa0\x61v\xf6")


def block(at, previous, batches, state):
    """The id of a block and its frame, and the words of its line behind the verdict."""
    header = number(1, at) + record(2, previous) + record(3, KEY) + b"".join(record(4, batch.id) for batch in batches)
    header += record(5, "Devmode") + record(6, root(state))
    name, content = signed(KEY, header, b"".join(record(3, batch.written) for batch in batches))
    count = sum(len(batch.txs) for batch in batches)
    return name, frame(content), f"{at} {name} {root(state)} {len(batches)} {count}"


# --- the serial model ---


def changes_of(tx, state):
    """What a transaction changes, or nothing where it is refused."""
    verb, *rest = tx.payload.split(" ")
    if verb == "set":
        return {rest[0]: rest[1].encode()}
    return {rest[1]: state.get(rest[0], b"none")} if verb == "copy" else None


def run(batches, state):
    """The map that the batches leave, the changes of each applied transaction in order, and the failed batches."""
    state, changed, fallen, failed = dict(state), [], set(), {}
    for k, batch in enumerate(batches):
        over, own = dict(state), []
        for t, tx in enumerate(batch.txs):
            came = changes_of(tx, over)
            reason = DEPENDENCY_FAILED if fallen & set(tx.behind) else REFUSED if came is None else 0
            if reason:
                failed[k] = t, reason
                fallen |= {other.id for other in batch.txs}
                break
            over.update(came)
            own.append((tx, came))
        else:
            state, changed = over, changed + own
    return state, changed, failed


def receipt(tx, changes):
    parts = [record(1, record(1, at) + record(2, changes[at]) + number(3, 1)) for at in sorted(changes)]
    return f"{tx.id} {(b''.join(parts) + record(4, tx.id)).hex()}\n"


# --- the batches of the cases ---


def chain(nonce):
    """Batches that all apply, of which most read what others before them wrote."""
    first = Transaction(f"set a one{nonce}", nonce)
    lines = [["copy a b", "copy b c"], ["set d two"], ["copy c d", f"set a three{nonce}"], ["copy a e"], ["copy d b"], ["copy g h"]]
    made = [Batch(first)]
    made += [Batch(*(Transaction(line, f"{nonce}/{k}") for line in batch)) for k, batch in enumerate(lines)]
    return [*made, Batch(Transaction("copy e f", nonce, [first])), Batch(Transaction("copy h i", nonce))]


def standing(nonce):
    """Batches of which the second fails at its second transaction: others stand on what its first one wrote, and some
    name it, or a batch that fails for that."""
    written = Transaction("set x lost", nonce)
    named = Transaction("set q one", nonce, [written])
    return [
        Batch(Transaction("set p kept", nonce)),
        Batch(written, Transaction("refuse r", nonce)),
        Batch(Transaction("copy x y", nonce)),
        Batch(Transaction("copy y z", nonce), Transaction("copy p w", nonce)),
        Batch(named),
        Batch(Transaction("copy q u", nonce)),
        Batch(Transaction("set s one", nonce), Transaction("set t two", nonce, [named])),
        Batch(Transaction("copy s v", nonce)),
        Batch(Transaction("set x again", nonce)),
        Batch(Transaction("copy x m", nonce), Transaction("copy z n", nonce)),
    ]


# --- writing cases ---


def put(case, words, stream, output, notes="", status=0, more=()):
    """A case for each number of processors."""
    for count in PROCESSORS:
        folder = f"{sys.argv[1]}/stations-{count}-{case}"
        parts = {"words": "\n".join([*words, "--workers", "4", ""]), "processors": f"{count}\n", "stderr": notes}
        parts |= {"stdin": stream, "stdout": output, "status": f"{status}\n", **dict(more)}
        for name, part in parts.items():
            os.makedirs(os.path.dirname(f"{folder}/{name}"), exist_ok=True)
            with open(f"{folder}/{name}", "wb") as file:
                file.write(part.encode() if isinstance(part, str) else part)


def head(line):
    return "head " + " ".join(line.split()[:3]) + "\n"


def applied():
    """Two blocks without fault, and the receipts of their transactions."""
    one, two = chain("0"), chain("1")
    state, changed, failed = run(one, {})
    later, further, failed_later = run(two, state)
    assert not failed and not failed_later and state != later
    name, first, line = block(0, NO_BLOCK, one, state)
    _, second, other = block(1, name, two, later)
    said = f"block 0 committed {line}\nblock 1 committed {other}\n{head(other)}"
    put("apply", ["apply"], first + second, said)
    put("receipts", ["receipts"], first + second, "".join(receipt(*one) for one in changed + further))


def refused():
    """A block with a failing batch between two without fault, the last behind the first."""
    one, two, three = chain("0"), standing("0"), chain("2")
    state, _, _ = run(one, {})
    left, _, failed = run(two, state)
    later, _, _ = run(three, state)
    (k, (t, reason)) = next(iter(failed.items()))
    name, first, line = block(0, NO_BLOCK, one, state)
    _, second, _ = block(1, name, two, left)
    _, third, other = block(1, name, three, later)
    said = f"block 0 committed {line}\nblock 1 refused 14 BatchInvalid {k} {t} {reason}\nblock 2 committed {other}\n"
    put("refused", ["apply"], first + second + third, said + head(other), status=1)


def published():
    """A candidate of the batches that stay, behind no block and behind one."""
    for case, before in (("publish", []), ("publish-on-head", chain("0"))):
        batches = standing("0")
        base, _, _ = run(before, {})
        state, _, failed = run(batches, base)
        assert {k: reason for k, (_, reason) in failed.items()} == {1: REFUSED, 4: DEPENDENCY_FAILED, 6: DEPENDENCY_FAILED}
        stay = [batch for k, batch in enumerate(batches) if k not in failed]
        name, stream, line = block(0, NO_BLOCK, before, base) if before else (NO_BLOCK, b"", "")
        _, made, own = block(int(bool(before)), name, stay, state)
        told = [f"block 0 committed {line}"] * bool(before) + [f"block {int(bool(before))} committed {own}"]
        notes = "".join(f"batch {k} dropped invalid {t} {reason}\n" for k, (t, reason) in failed.items())
        listed = b"".join(record(1, batch.written) for batch in batches)
        more = {"files/list": listed, "applied": "\n".join(told) + f"\n{head(own)}"}
        put(case, ["publish", "--batches", "list"], stream, made, notes, more=more)


def main():
    usage.words(__doc__, 1)
    applied()
    refused()
    published()


if __name__ == "__main__":
    main()
