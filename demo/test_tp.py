"""Tests of the messages of demo/processor.py against `sawval tp`, with the validator's end of the link played here.

Usage: python3 -B demo/test_tp.py PROGRAM [NAME ..]

PROGRAM is that of `sawval`. With names such as `Played.test_counters` only these tests are run.

`sawval tp` serves IntegerKey, XO and Settings over the frames that a processor of one's own speaks. Here the module writes
what it reads, and reads what it writes.
"""

import os
import socket
import subprocess
import sys
import unittest
from concurrent.futures import ThreadPoolExecutor
from dataclasses import replace

DEMO = os.path.dirname(os.path.abspath(__file__))
sys.path[:0] = [DEMO, os.path.join(DEMO, "..", "tools")]

import processor
import usage
from counters import address, head, operation
from counters import text as cbor_text
from families import ACCEPT, ALGORITHM, FIRST, SECOND, THIRD, Transaction
from families import ballot, failure, move, proposal, under_two, written_transaction
from processor import DELETE, EVENT, GET, INVALID, OK, PROCESS, REGISTER, SET
from processor import fields, last, number, record, text

PROGRAM = []
SERVED = ["intkey", "xo", "sawtooth_settings"]
BATCHER = THIRD
REFUSAL = number(2, 2)
N = address("n")


def counter(verb, value, **others):
    """A transaction that changes the name `n`."""
    return replace(Transaction("intkey", FIRST, operation(verb, "n", value), [N], [N]), **others)


GAMES = [move(FIRST, "g,create,"), move(FIRST, "g,take,5"), move(SECOND, "g,take,5"), move(SECOND, "g,delete,")]
WISH = ALGORITHM, "Devmode"
VOTES = [*under_two(FIRST, SECOND), proposal(FIRST, *WISH), ballot(FIRST, ACCEPT, *WISH), ballot(SECOND, ACCEPT, *WISH)]


def said(kind, content):
    """What a processor says: a call of `processor.State` and what it is given, or `ends` and the status."""
    found = fields(content)
    if kind in (GET, DELETE):
        return "get" if kind == GET else "delete", text(found, 2)
    told = fields(last(found, 2))
    if kind == SET:
        return "set", text(told, 1), last(told, 2)
    if kind == EVENT:
        pairs = [(text(pair, 1), text(pair, 2)) for pair in map(fields, told.get(2, []))]
        return "event", text(told, 1), pairs, last(told, 3)
    return "ends", last(found, 1, 0)


class Validator:
    """The validator's end of a link, with a state and what the processor said of each transaction."""

    def __init__(self, connection):
        self.link, self.state, self.talks = processor.Link(connection), {}, []

    def registered(self, version=2):
        """Accepts each registration on this version of the link. Gives the families with the version that is asked for."""
        offers, more = [], 1
        while more:
            kind, correlation, content = self.link.receive()
            offer = fields(content)
            offers.append((kind, text(offer, 1), text(offer, 2), last(offer, 6, 0)))
            more = last(offer, 9, 0)
            self.link.send(kind + 1, correlation, number(1, OK) + (number(2, 2) if version == 2 else b""))
        self.link.version = version
        return offers

    def ask(self, tx, context):
        """Sends a transaction under this number, with two payloads: of a field that comes again the last one counts."""
        name, content = written_transaction(tx, BATCHER)
        header = record(5 if self.link.version == 2 else 1, last(fields(content), 1))
        payloads = record(2, b"passed over") + record(2, tx.payload)
        self.link.send(PROCESS, context, header + payloads + record(3, name) + record(4, context))

    def run(self, tx, refused=""):
        """The status of a transaction, of which such a call is refused. What it changes stays where the status is OK."""
        talk, context, state = [], str(len(self.talks) + 1), dict(self.state)
        self.talks.append(talk)
        self.ask(tx, context)
        while True:
            kind, correlation, content = self.link.receive()
            call, *given = said(kind, content)
            talk.append((call, *given))
            if call == "ends":
                self.state = state if given == [OK] else self.state
                return given[0]
            assert text(fields(content), 1) == context
            content = REFUSAL if call == refused else answer(tx, state, call, *given)
            self.link.send(kind + 1, correlation, content)


def answer(tx, state, call, place, *given):
    """The answer to a request."""
    declared = tx.inputs if call == "get" else tx.outputs
    if call == "event":
        return number(2, OK)
    if not place.startswith(tuple(declared)):
        return REFUSAL
    if call == "get":
        return record(1, record(1, place) + record(2, state.get(place, b""))) + number(2, OK)
    state.pop(place, None)
    state.update((place, data) for data in given)
    return record(1, place) + number(2, OK)


def met(start):
    """What `start` gives for a port, and the validator's end of the link to who connects there."""
    with socket.create_server(("127.0.0.1", 0)) as listening:
        listening.settimeout(20)
        started = start(listening.getsockname()[1])
        connection, _ = listening.accept()
    connection.settimeout(20)
    return started, Validator(connection)


def program(port):
    return subprocess.Popen([*PROGRAM, "tp", "--connect", str(port)], stdout=subprocess.PIPE, stderr=subprocess.STDOUT)


def calls(talks, seen):
    """The function of a family that says this of one transaction after another, and notes what it is given."""
    left = iter(talks)

    def apply(transaction, state):
        seen.append(transaction[1:])
        for call, *given in next(left):
            if call != "ends":
                getattr(state, call)(*given)
            elif given != [OK]:
                raise processor.Invalid

    return apply


def stated(tx):
    """What the function of a family is given of a transaction, but for the id."""
    return tx.family, "1.0", tx.signer, BATCHER, tx.inputs, tx.outputs, [], tx.nonce, tx.payload


def module(version, apply, txs):
    """What a processor of the module with this function offers, how many it answers, and the validator's end."""
    families = [processor.Family(name, "1.0", [], apply) for name in SERVED]
    with ThreadPoolExecutor(1) as pool:
        served, validator = met(lambda port: pool.submit(processor.serve, port, *families))
        with validator.link.connection:
            offers = validator.registered(version)
            for tx in txs:
                validator.run(tx)
        return offers, served.result(20), validator


# What is no answer to a get: another type, correlation id, address and status, and a refusal that has an entry.
ENTRY = record(1, record(1, N)) + number(2, OK)
BREACHES = [
    (GET + 2, "1", ENTRY),
    (GET + 1, "2", ENTRY),
    (GET + 1, "1", number(2, OK)),
    (GET + 1, "1", ENTRY + number(2, 3)),
    (GET + 1, "1", ENTRY + REFUSAL),
]


class Played(unittest.TestCase):
    """Links to the program."""

    def begin(self, version=2):
        """A link of this version to the program, whose registrations are accepted. Gives them."""
        self.tp, self.validator = met(program)
        self.addCleanup(self.tp.stdout.close)
        self.addCleanup(self.tp.kill)
        self.addCleanup(self.validator.link.connection.close)
        return self.validator.registered(version)

    def ends(self, status=0):
        """The status of the program where the link is closed. It wrote nothing."""
        self.validator.link.connection.close()
        self.assertEqual((self.tp.wait(20), self.tp.stdout.read()), (status, b""))

    def says(self, tx, *talk):
        """What is said of a transaction: its requests and its status."""
        self.assertEqual(self.validator.run(tx), talk[-1])
        self.assertEqual(self.validator.talks[-1], [*talk[:-1], ("ends", talk[-1])])

    def test_registrations(self):
        """The first asks for version 2 of the link, and the others for that of its answer."""
        for version, asked in (2, [2, 2, 2]), (1, [2, 0, 0]):
            offers = [(REGISTER, name, "1.0", wish) for name, wish in zip(SERVED, asked)]
            self.assertEqual(self.begin(version), offers)
            self.ends()

    def test_counters(self):
        """A set and an inc, on both versions of the link."""
        five, seven = b"\xa1\x61n\x05", b"\xa1\x61n\x07"
        for version in 2, 1:
            self.begin(version)
            self.says(counter("set", 5), ("get", N), ("set", N, five), OK)
            self.says(counter("inc", 2), ("get", N), ("set", N, seven), OK)
            self.assertEqual(self.validator.state, {N: seven})
            self.ends()

    def test_refused(self):
        """Transactions that are invalid; the next one is served behind each."""
        self.begin()
        asks, sets = ("get", N), ("set", N, b"\xa1\x61n\x05")
        self.says(counter("inc", 2), asks, INVALID)
        self.says(counter("set", 5, inputs=[]), asks, INVALID)
        self.says(counter("set", 5, outputs=["1cf12600"]), asks, sets, INVALID)
        self.says(counter("set", 5, payload=b"no map"), INVALID)
        self.says(counter("set", 5, family="sawtooth_identity"), INVALID)
        self.says(counter("set", 5, family="names"), INVALID)
        self.assertEqual(self.validator.state, {})
        self.says(counter("set", 5), asks, sets, OK)
        self.says(counter("set", 5), asks, INVALID)
        self.ends()

    def test_refused_requests(self):
        """A transaction ends as invalid behind each kind of request that a validator refuses."""
        self.begin()
        self.validator.run(GAMES[0])
        refused = {"get": counter("set", 5), "set": counter("set", 5), "delete": GAMES[-1], "event": VOTES[0]}
        for call, tx in refused.items():
            self.assertEqual(self.validator.run(tx, call), INVALID)
            self.assertEqual([one[0] for one in self.validator.talks[-1][-2:]], [call, "ends"])
        self.assertEqual(list(self.validator.state), GAMES[0].outputs)
        self.ends()

    def test_long(self):
        """Entries that version 1 of the link has no room for, in both directions."""
        self.begin()
        long = cbor_text("x" * 2_000_000) + head(0, 1)
        self.validator.state[N] = b"\xa2\x61n\x05" + long
        self.assertEqual(self.validator.run(counter("inc", 2)), OK)
        self.assertEqual(self.validator.state, {N: b"\xa2\x61n\x07" + long})
        self.ends()

    def test_games_and_settings(self):
        """What the model of tools/families.py says and leaves: sets, deletions and events."""
        self.begin()
        state = {}
        for tx in GAMES + VOTES:
            fault = failure([[tx]], state)
            self.assertEqual(self.validator.run(tx), INVALID if fault else OK, fault)
            self.assertEqual({bytes.fromhex(at): data for at, data in self.validator.state.items()}, state)
        self.ends()
        talks = self.validator.talks
        self.assertEqual([talk[-1][1] for talk in talks], [OK, OK, INVALID, OK, OK, OK, OK, INVALID, OK])
        self.assertIn(("delete", *GAMES[0].outputs), talks[3])
        self.assertIn(("event", "settings/update", [("updated", ALGORITHM)], b""), talks[-1])

    def test_module(self):
        """A processor of the module that makes the same calls says the same, on both versions of the link."""
        offers = self.begin()
        txs = [counter("set", 5, nonce="once"), counter("inc", 2), counter("inc", 2, inputs=[]), *GAMES, *VOTES]
        for tx in txs:
            self.validator.run(tx)
        self.ends()
        for version in 2, 1:
            seen = []
            registered, answered, other = module(version, calls(self.validator.talks, seen), txs)
            self.assertEqual((registered, answered), (offers, len(txs)))
            self.assertEqual((other.talks, other.state), (self.validator.talks, self.validator.state))
            self.assertEqual(seen, [stated(tx) for tx in txs])

    def test_breaches(self):
        """What is not allowed where it comes ends the program with status 6."""
        tx = counter("set", 5)
        for breach in BREACHES:
            with self.subTest(breach):
                self.begin()
                self.validator.ask(tx, "1")
                self.assertEqual(self.validator.link.receive()[:2], (GET, "1"))
                self.validator.link.send(*breach)
                self.ends(6)
        for broken in lambda: self.validator.ask(tx, "2"), lambda: self.validator.link.connection.sendall(b"\0\0"):
            self.begin()
            broken()
            self.ends(6)


if __name__ == "__main__":
    PROGRAM.append(usage.program(__doc__))
    unittest.main()
