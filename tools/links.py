"""Makes the cases of saw_cases with an external processor: what it sends, what is sent to it, and what the run says.

Written apart from the validator, from the public formats alone, so its answers are expected values. A file `peer` of a case
has the frames of the processor, each behind its length, and a file `sent` those that it is sent.
Usage: python3 -B tools/links.py crates/saw_cases/data/cases
"""

import os
import struct

import usage
from counters import KEY, half, node, record, sha512
from families import Transaction, frame, number, signed, written_batch, written_transaction

REGISTER, PROCESS, GET, SET, DELETE, EVENT = 1, 5, 7, 9, 11, 15
OK, INVALID, BROKEN = 1, 2, 3
REFUSED = 2


def message(kind, correlation, content):
    return frame(number(1, kind) + record(2, correlation) + (record(3, content) if content else b""))


def offer(family, version=0, more=False, correlation="r"):
    """A registration, of this version of the link."""
    content = record(1, family) + record(2, "1.0") + number(6, version) + number(9, more)
    return message(REGISTER, correlation, content)


def welcome(version=0, correlation="r"):
    return message(REGISTER + 1, correlation, number(1, OK) + number(2, version))


def request(count, tx, version=0):
    """A transaction that is sent to a processor, as the number that it is."""
    name, content = written_transaction(tx, tx.signer)
    header = header_of(content)
    first, last = (b"", record(5, header)) if version == 2 else (record(1, header), b"")
    return message(PROCESS, str(count), first + record(2, tx.payload) + record(3, name) + record(4, str(count)) + last)


def header_of(content):
    """The first field of a message that begins with it."""
    size, at = 0, 1
    for shift in range(0, 35, 7):
        size |= (content[at] & 127) << shift
        at += 1
        if content[at - 1] < 128:
            break
    return content[at : at + size]


def response(count, status):
    return message(PROCESS + 1, str(count), number(1, status))


def asks(kind, count, content, correlation):
    return message(kind, correlation, record(1, str(count)) + content)


def answers(kind, content, correlation, status=OK):
    return message(kind + 1, correlation, content + number(2, status))


def entry(address, data):
    return record(1, address) + (record(2, data) if data else b"")


# Transactions and blocks.


def address_of(name):
    return sha512(b"demo")[:6] + sha512(name.encode())[:64]


def transaction(payload, nonce, family="demo"):
    return Transaction(family, KEY, payload.encode(), [address_of("a")], [address_of("a")], nonce)


def root(state):
    if not state:
        return half(b"\xa2\x61c\xa0\x61v\xf6")
    return half(node({bytes.fromhex(address): data for address, data in state.items()}, 0))


def block(at, previous, batches, state):
    """The id of a block, its frame, and the words of its line behind the verdict."""
    made = [written_batch(batch) for batch in batches]
    header = number(1, at) + record(2, previous) + record(3, KEY)
    header += b"".join(record(4, name) for name, _ in made) + record(5, "Devmode") + record(6, root(state))
    name, content = signed(KEY, header, b"".join(record(3, part) for _, part in made))
    count = sum(len(batch) for batch in batches)
    return name, frame(content), f"{at} {name} {root(state)} {len(batches)} {count}"


(FOLDER,) = usage.words(__doc__, 1)


def put(case, stream, peer, sent, output, notes="", status=0, words="apply\n"):
    os.makedirs(f"{FOLDER}/{case}", exist_ok=True)
    parts = {"words": words.encode(), "stdin": stream, "stdout": output.encode(), "stderr": notes.encode()}
    parts["status"] = f"{status}\n".encode()
    if peer is not None:
        parts |= {"peer": b"".join(peer), "sent": b"".join(sent)}
    for name, part in parts.items():
        with open(f"{FOLDER}/{case}/{name}", "wb") as file:
            file.write(part)


def head(line):
    return "head " + " ".join(line.split()[:3]) + "\n"


def quiet():
    """Two blocks of one transaction each that changes nothing."""
    first, second = transaction("one", "0"), transaction("two", "1")
    name, one, line = block(0, "0" * 16, [[first]], {})
    _, two, other = block(1, name, [[second]], {})
    begun = [welcome(), request(1, first), request(2, second)]
    both = f"block 0 committed {line}\nblock 1 committed {other}\n"
    put("peer-accepts-both", one + two, [offer("demo"), response(1, OK), response(2, OK)], begun, both + head(other))
    put("peer-breaks-later", one + two, [offer("demo"), response(1, OK), response(2, BROKEN)], begun,
        f"block 0 committed {line}\n", "fault 6 peer\n", 6)
    put("peer-ends-later", one + two, [offer("demo"), response(1, OK)], begun,
        f"block 0 committed {line}\n", "fault 6 peer\n", 6)
    put("peer-sends-garbage", one + two, [offer("demo"), response(1, OK), frame(b"\x07")], begun,
        f"block 0 committed {line}\n", "fault 6 peer\n", 6)
    put("peer-answers-another", one + two, [offer("demo"), response(1, OK), response(1, OK)], begun,
        f"block 0 committed {line}\n", "fault 6 peer\n", 6)
    put("peer-refuses", one + two, [offer("demo"), response(1, INVALID), response(2, OK)], begun[:2],
        "block 0 refused 14 BatchInvalid 0 0 5\n"
        f"block 1 refused 10 PreviousUnknown\nhead none\n", "", 1)
    put("peer-offers-another", one + two, [offer("other")], begun[:1],
        "block 0 refused 14 BatchInvalid 0 0 2\nblock 1 refused 10 PreviousUnknown\nhead none\n", "", 1)
    put("peer-absent", one + two, None, None,
        "block 0 refused 14 BatchInvalid 0 0 2\nblock 1 refused 10 PreviousUnknown\nhead none\n", "", 1)
    put("peer-ends-first", one + two, [offer("demo")], begun[:2], "", "fault 6 peer\n", 6)
    put("peer-does-not-register", one + two, [], [], "", "fault 6 peer\n", 6)
    # A content that states 127 bytes and has one: of the message, and of a text in an answer.
    registration = frame(number(1, REGISTER) + record(2, "r") + b"\x1a\x7fa")
    put("peer-registration-states-more", one + two, [registration], [], "", "fault 6 peer\n", 6)
    answer = message(PROCESS + 1, "2", number(1, OK) + b"\x12\x7fa")
    put("peer-answer-states-more", one + two, [offer("demo"), response(1, OK), answer], begun,
        f"block 0 committed {line}\n", "fault 6 peer\n", 6)
    put("peer-offers-two", one + two, [offer("other", more=True, correlation="a"), offer("demo", correlation="b"),
        response(1, OK), response(2, OK)], [welcome(correlation="a"), welcome(correlation="b")] + begun[1:], both + head(other))
    put("peer-changes-its-version", one + two, [offer("other", 2, True), offer("demo", 1)], [welcome(2)], "",
        "fault 6 peer\n", 6)
    put("peer-not-begun-for-bad-words", b"", [offer("demo")], [], "", "fault 2 words\n", 2, "apply\n--listen\n5000\n")
    put("peer-beside-words-that-listen", one + two, [offer("demo"), response(1, OK), response(2, OK)], begun,
        both + head(other), words="apply\n--remotes=1\n--listen\n4004\n")


def changing(version):
    """A transaction that reads an address, sets it, tells an event, and reads it again."""
    tx, at = transaction("set", "0"), address_of("a")
    state = {at: b"five"}
    _, stream, line = block(0, "0" * 16, [[tx]], state)
    event = record(1, "demo/set") + record(2, record(1, "name") + record(2, "a")) + record(3, b"seen")
    peer = [
        offer("demo", version),
        asks(GET, 1, record(2, at), "g"),
        asks(SET, 1, record(2, entry(at, b"five")), "s"),
        asks(EVENT, 1, record(2, event), "e"),
        asks(GET, 1, record(2, at), "h"),
        response(1, OK),
    ]
    sent = [
        welcome(version),
        request(1, tx, version),
        answers(GET, record(1, entry(at, b"")), "g"),
        answers(SET, record(1, at), "s"),
        answers(EVENT, b"", "e"),
        answers(GET, record(1, entry(at, b"five")), "h"),
    ]
    put(f"peer-sets-on-version-{version or 1}", stream, peer, sent, f"block 0 committed {line}\n" + head(line))


def denied():
    """Requests of addresses that are not declared: nothing of them is done, and the processor decides."""
    tx, other = transaction("get", "0"), address_of("b")
    _, stream, line = block(0, "0" * 16, [[tx]], {})
    both = record(2, entry(address_of("a"), b"five")) + record(2, entry(other, b"six"))
    peer = [
        offer("demo"),
        asks(GET, 1, record(2, other), "g"),
        asks(SET, 1, both, "s"),
        asks(DELETE, 1, record(2, "no address"), "d"),
        response(1, OK),
    ]
    sent = [
        welcome(),
        request(1, tx),
        answers(GET, b"", "g", REFUSED),
        answers(SET, b"", "s", REFUSED),
        answers(DELETE, b"", "d", REFUSED),
    ]
    put("peer-asks-undeclared", stream, peer, sent, f"block 0 committed {line}\n" + head(line))


def main():
    # The two frames that the format gives.
    assert welcome(2) == bytes.fromhex("0000000b08021201721a0408011002")
    assert response(1, OK) == bytes.fromhex("000000090806120131" + "1a020801")
    quiet()
    changing(0)
    changing(2)
    denied()


if __name__ == "__main__":
    main()
