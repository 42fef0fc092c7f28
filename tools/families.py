"""Makes cases of saw_cases: games, settings, batches that come again, signers that are denied, odd bytes of messages
and of CBOR, and a name with `=`.

What is expected comes from the model below of the families and the ledger, and never from the validator. Of refusals
the model knows those that the cases meet. Each case states its verdict too, and the two must agree.
Usage: python3 -B tools/families.py crates/saw_cases/data/cases
It writes a folder for each case.
"""

import base64
import hashlib
import os
import struct
from dataclasses import dataclass

import counters
import usage
from applied import records, values
from counters import head, node, record, sha512, text, varint

FIRST, SECOND, THIRD = counters.KEY, "03" + "2" * 64, "02" + "3" * 64
NO_BLOCK = "0" * 16


def sha256(data):
    return hashlib.sha256(data).hexdigest()


def number(field, value):
    return varint(field << 3) + varint(value) if value else b""


def last(message, field):
    """The last value of a text field that may be absent."""
    return (values(message, field) or [b""])[-1].decode()


# Transactions, batches and blocks.


@dataclass
class Transaction:
    family: str
    signer: str
    payload: bytes
    inputs: list
    outputs: list
    nonce: str = ""


def development_mark(key, header):
    return sha512(key.encode() + header)


# How a header is signed; batches.py puts another way here where it signs with a real key.
WAY = {"sign": development_mark}


def signed(key, header, parts=b""):
    """The id of a message of a header, its signature and further parts, and the message."""
    mark = WAY["sign"](key, header)
    return mark, record(1, header) + record(2, mark) + parts


def written_transaction(tx, batcher):
    header = record(1, batcher) + record(3, tx.family) + record(4, "1.0")
    header += b"".join(record(5, declared) for declared in tx.inputs) + record(6, tx.nonce)
    header += b"".join(record(7, declared) for declared in tx.outputs)
    header += record(9, sha512(tx.payload)) + record(10, tx.signer)
    return signed(tx.signer, header, record(3, tx.payload))


def written_batch(batch):
    """The id of a batch that the signer of its first transaction signs, and the batch."""
    signer = batch[0].signer
    made = [written_transaction(tx, signer) for tx in batch]
    header = record(1, signer) + b"".join(record(2, name) for name, _ in made)
    return signed(signer, header, b"".join(record(3, content) for _, content in made))


def block_header(previous, names, root):
    header = record(2, previous) + record(3, FIRST) + b"".join(record(4, name) for name in names)
    return header + record(5, "Devmode") + record(6, root)


def frame(content):
    return struct.pack(">I", len(content)) + content


# What a transaction may do.


class Invalid(Exception):
    """A transaction is invalid for the reason that this carries."""


def check(holds, reason):
    if not holds:
        raise Invalid(reason)


class Access:
    """The state as a transaction reads and changes it, where it declares that."""

    def __init__(self, tx, state):
        self.tx, self.state = tx, state

    def get(self, address, reason):
        check(any(address.startswith(declared) for declared in self.tx.inputs), reason)
        return self.state.get(bytes.fromhex(address), b"")

    def put(self, address, value, reason):
        """Sets an address, or deletes it where there is no value."""
        check(any(address.startswith(declared) for declared in self.tx.outputs), reason)
        if value is None:
            self.state.pop(bytes.fromhex(address), None)
        else:
            self.state[bytes.fromhex(address)] = value


# Counters: only sets, of names that have different addresses.


def cut(data, at, size):
    check(at + size <= len(data), 101)
    return data[at : at + size]


def item(data, at):
    """The number, text or map that begins at a place, and the place behind it."""
    first, at = cut(data, at, 1)[0], at + 1
    major, argument = first >> 5, first & 31
    if argument > 23:
        size = 1 << argument - 24
        argument, at = int.from_bytes(cut(data, at, size), "big"), at + size
    if major == 0:
        return argument, at
    if major == 3:
        try:
            return cut(data, at, argument).decode(), at + argument
        except UnicodeDecodeError:
            raise Invalid(101) from None
    check(major == 5, 101)
    pairs = {}
    for _ in range(argument):
        key, at = item(data, at)
        pairs[key], at = item(data, at)
    return pairs, at


def count(tx, access):
    pairs, end = item(tx.payload, 0)
    check(end == len(tx.payload), 101)
    check(pairs["Verb"] == "set", 102)
    address = counters.address(pairs["Name"])
    check(not access.get(address, 105), 107)
    access.put(address, head(5, 1) + text(pairs["Name"]) + head(0, pairs["Value"]), 105)


# Games.

LINES = ("123", "456", "789", "147", "258", "369", "159", "357")


def game_address(name):
    return "5b7349" + sha512(name.encode())[:64]


def turn(player):
    """The state of a game in which player 1 or 2 is to move."""
    return f"P{player}-NEXT"


def won(player):
    return f"P{player}-WIN"


def standing(board, other):
    for player, mark in enumerate("XO", 1):
        if any(all(board[int(space) - 1] == mark for space in line) for line in LINES):
            return won(player)
    return turn(other) if "-" in board else "TIE"


def taken(game, space, signer):
    board, now, first, second = game
    check(now in (turn(1), turn(2)), 209)
    mark, mover, other = ("X", first, 2) if now == turn(1) else ("O", second, 1)
    check(mover in ("", signer), 210)
    at = int(space) - 1
    check(board[at] == "-", 211)
    board = board[:at] + mark + board[at + 1 :]
    if not first:
        first = signer
    elif not second:
        second = signer
    return board, standing(board, other), first, second


def changed(games, name, action, space, signer):
    """The games behind an action."""
    if action == "create":
        check(name not in games, 207)
        return {**games, name: ("-" * 9, turn(1), "", "")}
    check(name in games, 208)
    if action == "take":
        return {**games, name: taken(games[name], space, signer)}
    return {other: game for other, game in games.items() if other != name}


def play(tx, access):
    parts = tx.payload.decode().split(",")
    check(len(parts) == 3, 201)
    name, action, space = parts
    check(name and "|" not in name, 202)
    check(action in ("create", "take", "delete"), 203)
    check(action != "take" or space in list("123456789"), 204)
    kept = access.get(game_address(name), 205).decode()
    games = {entry.split(",")[0]: tuple(entry.split(",")[1:]) for entry in kept.split("|") if entry}
    games = changed(games, name, action, space, tx.signer)
    entries = (",".join((name, *games[name])) for name in sorted(games, key=str.encode))
    access.put(game_address(name), "|".join(entries).encode() if games else None, 205)


# Settings.

KEYS = "sawtooth.settings.vote.authorized_keys"
THRESHOLD = "sawtooth.settings.vote.approval_threshold"
PROPOSALS = "sawtooth.settings.vote.proposals"
PROPOSE, VOTE, ACCEPT, REJECT = 1, 2, 1, 2


def setting_address(key):
    parts = (key.split(".", 3) + [""] * 3)[:4]
    return "000000" + "".join(sha256(part.encode())[:16] for part in parts)


def policy_address(name):
    return "00001d00" + sha256(name.encode())[:62]


def role_address(name):
    parts = setting_address(name)[6:]
    return "00001d01" + parts[:14] + parts[16:]


def fields(message, texts, reason):
    """The last value of each field. A number that is cut, or a text that is not UTF-8, is refused for the reason."""
    try:
        return {field: value.decode() if field in texts else value for field, value in records(message)}
    except (IndexError, UnicodeDecodeError):
        raise Invalid(reason) from None


def read(access, key):
    """The value of the first entry with the key, or nothing."""
    for entry in values(access.get(setting_address(key), 301), 1):
        if last(entry, 1) == key:
            return last(entry, 2)
    return None


def write(access, key, value):
    address = setting_address(key)
    entries = values(access.get(address, 301), 1)
    places = [at for at, entry in enumerate(entries) if last(entry, 1) == key]
    at = places[0] if places else len(entries)
    entries[at : at + 1] = [record(1, key) + record(2, value)]
    access.put(address, b"".join(record(1, entry) for entry in entries), 301)


def keys_in(value):
    return [part.strip(" ") for part in (value or "").split(",") if part.strip(" ")]


def is_number(value):
    return value.isascii() and value.isdecimal() and len(value) <= 9


def threshold(access):
    value = read(access, THRESHOLD)
    return 1 if value is None else int(value)


def candidates(access):
    """The proposals that are voted on: of each the id, its bytes, and the votes with their keys."""
    found = values(base64.b64decode(read(access, PROPOSALS) or ""), 1)
    return [
        (last(one, 1), values(one, 2)[-1], [(last(vote, 1), values(vote, 2)[-1]) for vote in values(one, 3)])
        for one in found
    ]


def put_candidates(access, found):
    written = b""
    for name, proposal, votes in found:
        one = record(1, name) + record(2, proposal)
        written += record(1, one + b"".join(record(3, record(1, key) + number(2, vote)) for key, vote in votes))
    write(access, PROPOSALS, base64.b64encode(written).decode())


def govern(tx, access):
    keys = keys_in(read(access, KEYS))
    check(not keys or tx.signer in keys, 303)
    payload = fields(tx.payload, (), 304)
    action = payload.get(1, 0) % 2**32
    check(action in (PROPOSE, VOTE), 305)
    (propose if action == PROPOSE else cast)(access, tx.signer, keys, payload.get(2, b""))


def propose(access, signer, keys, data):
    proposal = fields(data, (1, 2, 3), 306)
    setting, value = proposal.get(1, ""), proposal.get(2, "")
    needed = threshold(access)
    check(keys or setting == KEYS, 307)
    check(setting != KEYS or keys_in(value), 308)
    check(setting != THRESHOLD or is_number(value) and int(value) <= len(keys), 309)
    check(setting != PROPOSALS, 310)
    if needed <= 1:
        return write(access, setting, value)
    found = candidates(access)
    check(all(name != sha256(data) for name, _, _ in found), 311)
    put_candidates(access, found + [(sha256(data), data, [(signer, ACCEPT)])])


def cast(access, signer, keys, data):
    vote = fields(data, (1,), 306)
    choice = vote.get(2, 0) % 2**32
    check(choice in (ACCEPT, REJECT), 312)
    found = candidates(access)
    places = [at for at, one in enumerate(found) if one[0] == vote.get(1, "")]
    check(places, 313)
    _, proposal, votes = found[places[0]]
    needed = threshold(access)
    check(signer not in [key for key, _ in votes], 314)
    votes.append((signer, choice))
    choices = [one for _, one in votes]
    if choices.count(ACCEPT) >= needed:
        write(access, last(proposal, 1), last(proposal, 2))
        del found[places[0]]
    elif choices.count(REJECT) >= needed or len(votes) == len(keys):
        del found[places[0]]
    put_candidates(access, found)


# The ledger.

FAMILIES = {"intkey": count, "xo": play, "sawtooth_settings": govern}


def failure(batches, state):
    """What is said of the first invalid transaction, or nothing. The state is changed on the way."""
    for k, batch in enumerate(batches):
        for t, tx in enumerate(batch):
            try:
                FAMILIES[tx.family](tx, Access(tx, state))
            except Invalid as invalid:
                return f"14 BatchInvalid {k} {t} {invalid}"
    return None


class Ledger:
    """Blocks, each behind the one before it, with the last root and what is said of them."""

    def __init__(self, *blocks):
        self.stream, self.lines, self.faults = b"", [], []
        self.head, self.names, self.state = None, set(), {}
        for batches in blocks:
            self.add(batches)

    def root(self):
        return sha512(node(self.state, 0))[:64]

    def add(self, batches):
        made = [written_batch(batch) for batch in batches]
        state, names = dict(self.state), set(self.names)
        fault = self.repeated(made, names) or failure(batches, state)
        if not fault:
            self.state, self.names = state, names
        due, previous = (self.head[0] + 1, self.head[1]) if self.head else (0, NO_BLOCK)
        header = number(1, due) + block_header(previous, [name for name, _ in made], self.root())
        name, content = signed(FIRST, header, b"".join(record(3, batch) for _, batch in made))
        self.stream += frame(content)
        if fault:
            self.faults.append(fault)
            self.tell(f"refused {fault}")
        else:
            self.head = due, name, self.root()
            self.tell(f"committed {due} {name} {self.root()} {len(batches)} {sum(map(len, batches))}")

    def tell(self, verdict):
        self.lines.append(f"block {len(self.lines)} {verdict}")

    def repeated(self, made, names):
        """The first batch whose id is there already, or nothing. The names grow on the way."""
        for k, (name, _) in enumerate(made):
            if name in names:
                return f"13 Static {k} 1"
            names.add(name)
        return None


# Writing cases.


def put_file(path, content):
    os.makedirs(os.path.dirname(path), exist_ok=True)
    with open(path, "wb") as file:
        file.write(content)


def put(case, words, stream, output="", notes="", status=0, files=()):
    folder = os.path.join(counters.FOLDER, case)
    texts = {"words": "\n".join([*words, ""]), "stdout": output, "stderr": notes, "status": f"{status}\n"}
    texts.update((os.path.join("files", name), content) for name, content in files)
    put_file(os.path.join(folder, "stdin"), stream)
    for name, content in texts.items():
        put_file(os.path.join(folder, name), content.encode())


def put_apply(case, ledger):
    end = "{} {} {}".format(*ledger.head) if ledger.head else "none"
    output = "\n".join([*ledger.lines, f"head {end}", ""])
    put(case, ["apply"], ledger.stream, output, status=int(bool(ledger.faults)))


def committed(case, *blocks):
    """A case of blocks without fault."""
    ledger = Ledger(*blocks)
    assert not ledger.faults, (case, ledger.faults)
    put_apply(case, ledger)


def entries(state, family=""):
    return "".join(f"{at.hex()} {state[at].hex()}\n" for at in sorted(state) if at.hex().startswith(family))


def listed(case, *blocks, family=""):
    """A case of the entries that blocks without fault leave. Gives the state."""
    ledger = Ledger(*blocks)
    assert not ledger.faults, (case, ledger.faults)
    words = ["state", f"--prefix={family}"] if family else ["state"]
    put(case, words, ledger.stream, entries(ledger.state, family))
    return ledger.state


def refused(case, fault, *blocks):
    """A case of blocks of which one has this fault."""
    ledger = Ledger(*blocks)
    assert ledger.faults == [fault], (case, ledger.faults)
    put_apply(case, ledger)


# The cases of games.


def move(signer, payload, outputs=None):
    own = [game_address(payload.split(",")[0])]
    return Transaction("xo", signer, payload.encode(), own, own if outputs is None else outputs)


def game(spaces):
    """A game that is created, and spaces that two keys take in turn."""
    takes = [move((FIRST, SECOND)[turn % 2], f"g,take,{space}") for turn, space in enumerate(spaces)]
    return [move(FIRST, "g,create,"), *takes]


def game_cases():
    at = bytes.fromhex(game_address("g"))
    tie, line = "123546879", "142568793"
    committed("xo-tie-apply", [game(tie)])
    state = listed("xo-tie-state", [game(tie)], family="5b7349")
    assert state[at].decode() == f"g,XOXXOOOXX,TIE,{FIRST},{SECOND}"
    state = listed("xo-line-on-last-space-state", [game(line)], family="5b7349")
    assert state[at].decode() == f"g,XXXOOXXOO,{won(1)},{FIRST},{SECOND}"
    refused("xo-take-after-tie", "14 BatchInvalid 0 10 209", [game(tie) + [move(SECOND, "g,take,1")]])
    refused("xo-payload-action-other", "14 BatchInvalid 0 0 203", [[move(FIRST, "g,move,")]])
    refused("xo-payload-name-empty", "14 BatchInvalid 0 0 202", [[move(FIRST, ",create,")]])
    refused("xo-no-outputs", "14 BatchInvalid 0 0 205", [[move(FIRST, "g,create,", outputs=[])]])
    refused("xo-delete-no-outputs", "14 BatchInvalid 1 0 205", [game(""), [move(FIRST, "g,delete,", outputs=[])]])
    refused("xo-create-twice", "14 BatchInvalid 0 1 207", [game("") + [move(SECOND, "g,create,")]])
    refused("xo-take-absent", "14 BatchInvalid 1 0 208", [game("1"), [move(FIRST, "h,take,2")]])
    refused("xo-delete-absent", "14 BatchInvalid 1 0 208", [game("1"), [move(FIRST, "h,delete,")]])
    refused("xo-take-out-of-turn", "14 BatchInvalid 0 3 210", [game("15") + [move(SECOND, "g,take,9")]])
    refused("xo-take-by-third", "14 BatchInvalid 1 0 210", [game("15"), [move(THIRD, "g,take,9")]])
    refused("xo-take-out-of-turn-taken-space", "14 BatchInvalid 0 3 210", [game("15") + [move(SECOND, "g,take,1")]])


# The cases of settings.

ALGORITHM = "sawtooth.consensus.algorithm"


def act(signer, payload, *settings):
    """A transaction that declares the keys, the threshold, the proposals and further settings."""
    declared = [setting_address(key) for key in (KEYS, THRESHOLD, PROPOSALS, *settings)]
    declared = list(dict.fromkeys(declared))
    return Transaction("sawtooth_settings", signer, payload, declared, declared)


def proposed(setting, value):
    return record(1, setting) + record(2, value)


def proposal(signer, setting, value):
    return act(signer, number(1, PROPOSE) + record(2, proposed(setting, value)), setting)


def ballot(signer, choice, setting, value):
    data = record(1, sha256(proposed(setting, value))) + number(2, choice)
    return act(signer, number(1, VOTE) + record(2, data), setting)


def value_of(state, key):
    """The value of a setting that stands alone at its address."""
    entry = values(state.get(bytes.fromhex(setting_address(key)), b""), 1)
    return last(entry[0], 2) if entry else None


def under_two(*keys):
    """A batch that authorizes keys and sets the threshold to two."""
    return [proposal(FIRST, KEYS, ",".join(keys)), proposal(FIRST, THRESHOLD, "2")]


def settings_refused():
    """Reasons that a payload, a proposal or a vote gives."""
    keys = proposal(FIRST, KEYS, f"{FIRST},{SECOND}")
    refused("settings-payload-cut", "14 BatchInvalid 0 0 304", [[act(FIRST, b"\x08")]])
    bad_text = act(FIRST, number(1, VOTE) + record(2, record(1, b"\xff")))
    refused("settings-vote-not-utf8", "14 BatchInvalid 0 1 306", [[keys, bad_text]])
    refused("settings-propose-proposals", "14 BatchInvalid 0 1 310", [[keys, proposal(FIRST, PROPOSALS, "")]])
    opened = [*under_two(FIRST, SECOND), proposal(FIRST, ALGORITHM, "Devmode")]
    for case, choice in (("settings-vote-neither", 3), ("settings-vote-no-number", 0)):
        refused(case, "14 BatchInvalid 1 0 312", [opened, [ballot(SECOND, choice, ALGORITHM, "Devmode")]])
    unknown = ballot(SECOND, 3, ALGORITHM, "other")
    refused("settings-vote-neither-unknown", "14 BatchInvalid 1 0 312", [opened, [unknown]])


def settings_key_twice():
    """A key that stands twice counts twice: for the threshold that can be set, and for whether all have voted."""
    twice = under_two(FIRST, FIRST)
    committed("settings-key-twice", [twice])
    assert value_of(listed("settings-key-twice-state", [twice]), THRESHOLD) == "2"
    three = [proposal(FIRST, KEYS, f"{FIRST},{SECOND},{SECOND}"), proposal(FIRST, THRESHOLD, "3")]
    votes = [proposal(FIRST, ALGORITHM, "Devmode"), ballot(SECOND, REJECT, ALGORITHM, "Devmode")]
    state = listed("settings-key-twice-vote-state", [three, votes])
    assert value_of(state, PROPOSALS) and value_of(state, ALGORITHM) is None


def settings_carried_out():
    """A threshold that was lowered under an open proposal, and keys that were taken away under one."""
    for lowered in ("0", "1"):
        opened = [proposal(FIRST, ALGORITHM, "Devmode"), proposal(FIRST, THRESHOLD, lowered)]
        votes = [ballot(SECOND, ACCEPT, THRESHOLD, lowered), ballot(SECOND, REJECT, ALGORITHM, "Devmode")]
        batches = [under_two(FIRST, SECOND), opened, votes]
        committed(f"settings-reject-under-threshold-{lowered}", batches)
        state = listed(f"settings-reject-under-threshold-{lowered}-state", batches)
        assert [value_of(state, key) for key in (ALGORITHM, THRESHOLD, PROPOSALS)] == ["Devmode", lowered, ""]
    opened = [proposal(SECOND, THRESHOLD, "02"), proposal(FIRST, KEYS, FIRST)]
    votes = [ballot(SECOND, ACCEPT, KEYS, FIRST), ballot(FIRST, ACCEPT, THRESHOLD, "02")]
    batches = [under_two(FIRST, SECOND), opened, votes]
    committed("settings-vote-threshold-past-keys", batches)
    state = listed("settings-vote-threshold-past-keys-state", batches)
    assert [value_of(state, key) for key in (KEYS, THRESHOLD, PROPOSALS)] == [FIRST, "02", ""]


def settings_wide_numbers():
    """An action and a vote are the low 32 bits of their numbers."""
    payload = number(1, 2**32 + PROPOSE) + record(2, proposed(KEYS, FIRST))
    assert value_of(listed("settings-payload-action-wide-state", [[act(FIRST, payload)]]), KEYS) == FIRST
    opened = [*under_two(FIRST, SECOND), proposal(FIRST, ALGORITHM, "Devmode")]
    vote = ballot(SECOND, 2**32 + ACCEPT, ALGORITHM, "Devmode")
    assert value_of(listed("settings-vote-wide-state", [opened, [vote]]), ALGORITHM) == "Devmode"
    refused("settings-payload-action-wide-0", "14 BatchInvalid 0 0 305", [[act(FIRST, number(1, 2**32))]])


# The cases of counters, and of batches that come again.


def counter_set(verb=text("set"), name=text("a"), value=head(0, 5), front=head(5, 3), key=text("Verb")):
    payload = front + key + verb + text("Name") + name + text("Value") + value
    own = [counters.address("a")]
    return Transaction("intkey", FIRST, payload, own, own)


def counter_cases():
    five = b"\x1b" + b"\x00" * 7 + b"\x05"
    long = counter_set(b"\x78\x03set", b"\x79\x00\x01a", five, b"\xba\x00\x00\x00\x03", b"\x78\x04Verb")
    committed("intkey-payload-long-heads", [[long]])
    assert listed("intkey-payload-long-heads-state", [[long]]) == counters.state({"a": 5})
    refused("intkey-payload-name-not-utf8", "14 BatchInvalid 0 0 101", [[counter_set(name=b"\x61\xff")]])
    refused("intkey-payload-name-cut-character", "14 BatchInvalid 0 0 101", [[counter_set(name=b"\x61\xc3")]])
    refused("intkey-payload-name-cut", "14 BatchInvalid 0 0 101", [[counter_set(name=b"\x78\xffa")]])


def repeated_cases():
    batch, other = [counter_set()], [move(FIRST, "g,create,")]
    refused("same-batch-twice", "13 Static 1 1", [batch, batch])
    refused("child-repeats-batch", "13 Static 1 1", [batch], [other, batch])


# A case of permissions.


def identity_cases():
    """A candidate behind a case from outside, whose role of all transactors denies the second key; its notes are by hand."""
    case, denied = "identity-publish-denied", counter_set()
    denied.signer = SECOND
    batches = [written_batch(batch)[1] for batch in ([denied], [counter_set(), denied])]
    notes = "batch 0 dropped policy 3 batch 4 0\nbatch 1 dropped policy 3 1 4 0\n"
    words = ["publish", "--batches", "list"]
    put(case, words, outside("identity-policy-and-role", "stdin"), notes=notes, status=1)
    put_file(os.path.join(counters.FOLDER, case, "files", "list"), b"".join(record(1, batch) for batch in batches))


# The cases of messages.


def long_varint(value):
    """Ten bytes of seven bits, the lowest first."""
    return bytes(value >> 7 * place & 127 | (128 if place < 9 else 0) for place in range(10))


def numbered(case, front, stated):
    """A first block with bytes in front of its header that state a number."""
    root = sha512(node({}, 0))[:64]
    name, content = signed(FIRST, front + block_header(NO_BLOCK, [], root))
    if stated:
        output = f"block 0 refused 11 BlockNumber {stated} 0\nhead none\n"
    else:
        output = f"block 0 committed 0 {name} {root} 0 0\nhead 0 {name} {root}\n"
    put(case, ["apply"], frame(content), output, status=int(stated > 0))


def message_cases():
    past, all_bits = 63 << 64, (1 << 70) - 1
    numbered("number-bits-past-64", b"\x08" + long_varint(past), past % 2**64)
    numbered("number-all-70-bits", b"\x08" + long_varint(all_bits), all_bits % 2**64)
    numbered("header-last-number-wins", b"\x08\x07\x08\x00", 0)
    numbered("header-last-number-wins-refused", b"\x08\x00\x08\x07", 7)
    # Fields 536,870,912 and 536,870,913; an id that is not UTF-8 before one that is; a key of which a bit is dropped.
    for digits in ("808080801000", "888080801000", "1201ff120161"):
        output = "block 0 refused 1 Undecodable\nhead none\n"
        put(f"undecodable-{digits}", ["apply"], frame(bytes.fromhex(digits)), output, status=1)
    key = long_varint(2**64 + 8) + b"\x00"
    put(f"decodable-{key.hex()}", ["apply"], frame(key), "block 0 refused 2 IdText\nhead none\n", status=1)


# A case of words.


def word_cases():
    # The signature is no mark: only the list has it.
    root, signature = sha512(node({}, 0))[:64], "ab" * 64
    header = block_header(NO_BLOCK, [], root)
    stream = frame(record(1, header) + record(2, signature))
    output = f"block 0 committed 0 {signature} {root} 0 0\nhead 0 {signature} {root}\n"
    line = f"{FIRST} {signature} {sha512(header)}\n"
    put("attest-name-with-equals", ["apply", "--attest=a=b"], stream, output, files=[("a=b", line)])


# Cases from outside, of which the model makes some too.


def outside(case, name):
    with open(os.path.join(counters.FOLDER, case, name), "rb") as file:
        return file.read()


def agree():
    """The model makes a stream and states of cases from outside as they are."""
    assert Ledger(*([[tx]] for tx in game("14253"))).stream == outside("xo-game", "stdin")
    opened = [[under_two(FIRST, SECOND)], [[proposal(FIRST, ALGORITHM, "Devmode")]]]
    accepted, rejected = ([[ballot(SECOND, choice, ALGORITHM, "Devmode")]] for choice in (ACCEPT, REJECT))
    for case, blocks in (("proposal", []), ("vote", [accepted]), ("vote-reject", [rejected])):
        assert entries(Ledger(*opened, *blocks).state).encode() == outside(f"settings-{case}-state", "stdout")


def main():
    usage.words(__doc__, 1)
    agree()
    game_cases()
    settings_refused()
    settings_key_twice()
    settings_carried_out()
    settings_wide_numbers()
    counter_cases()
    repeated_cases()
    identity_cases()
    message_cases()
    word_cases()


if __name__ == "__main__":
    main()
