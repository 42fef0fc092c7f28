"""Tests of demo/processor.py and demo/names.py, against a built program.

Usage: python3 -B demo/test_processor.py PROGRAM [NAME ..]

PROGRAM is that of `sawval`. With names such as `Served.test_invalid` only these tests are run.
"""

import os
import socket
import struct
import subprocess
import sys
import tempfile
import time
import unittest
from concurrent.futures import ThreadPoolExecutor

DEMO = os.path.dirname(os.path.abspath(__file__))
sys.path[:0] = [DEMO, os.path.join(DEMO, "..", "tools")]

import names
import processor
import usage
from families import Transaction, written_batch
from processor import last, number, record

PROGRAM = []
KEY = "02" + "0" * 64
HERE, THERE, ELSEWHERE = ("5a5a5a" + digit * 64 for digit in "123")


def sent(payload):
    """A transaction that declares two addresses."""
    return Transaction("tried", KEY, payload.encode(), [HERE, THERE], [HERE, THERE], payload)


def claim(name):
    """A transaction of the family of demo/names.py."""
    own = [names.address_of(name)]
    return Transaction("names", KEY, f"claim {name}".encode(), own, own, name)


def free_port():
    with socket.socket() as one:
        one.bind(("127.0.0.1", 0))
        return one.getsockname()[1]


def run(words, stdin, families, remotes=1, workers=1):
    """Runs the program with so many processors: its status, output and notes, and how each `serve` came out."""
    port = free_port()
    options = ["--listen", str(port), "--remotes", str(remotes), "--workers", str(workers)]
    with ThreadPoolExecutor(remotes) as pool:
        served = [pool.submit(processor.serve, port, *families) for _ in range(remotes)]
        done = subprocess.run([*PROGRAM, *words, *options], input=stdin, capture_output=True, timeout=20)
    return done.returncode, done.stdout, done.stderr.decode(), [each.exception() or each.result() for each in served]


def publish(batches, *families, **counts):
    """The same, of `publish` with a list of these batches."""
    with tempfile.NamedTemporaryFile() as file:
        file.write(b"".join(record(1, written_batch(batch)[1]) for batch in batches))
        file.flush()
        return run(["publish", "--batches", file.name], b"", families, **counts)


def tried(apply):
    return processor.Family("tried", "1.0", ["5a5a5a"], apply)


class Served(unittest.TestCase):
    """Runs of the program."""

    def test_state(self):
        """A get, set, delete and event, of one of two families; the block has what they say."""
        seen = []

        def apply(transaction, state):
            seen.append((transaction.payload, transaction.signer, transaction.inputs, state.get(HERE), state.get(THERE)))
            state.set(HERE, transaction.payload)
            state.set(THERE, b"x" * 2_000_000)
            seen.append((state.get(HERE), len(state.get(THERE))))
            state.delete(THERE)
            state.event("tried/it", [("a", "1"), ("a", "2")], b"data")

        families = [names.FAMILY, tried(apply)]
        status, block, notes, counts = publish([[sent("one"), sent("two")]], *families)
        self.assertEqual((status, notes, counts), (0, "", [2]))
        both = [HERE, THERE]
        first = [(b"one", KEY, both, b"", b""), (b"one", 2_000_000)]
        self.assertEqual(seen, first + [(b"two", KEY, both, b"one", b""), (b"two", 2_000_000)])
        _, state, _, _ = run(["state"], block, families)
        self.assertEqual(state.decode(), f"{HERE} {b'two'.hex()}\n")
        pairs = [record(2, record(1, "a") + record(2, value)) for value in "12"]
        event = record(2, record(1, "tried/it") + b"".join(pairs) + record(3, "data"))
        _, receipts, _, _ = run(["receipts"], block, families)
        self.assertEqual(receipts.decode().count(event.hex()), 2)

    def test_invalid(self):
        """`Invalid` refuses the batch and no other; what the transaction did before is not kept."""

        def apply(transaction, state):
            state.set(HERE, transaction.payload)
            if transaction.payload == b"bad":
                raise processor.Invalid

        status, block, notes, counts = publish([[sent("good")], [sent("bad")]], tried(apply))
        self.assertEqual((status, notes, counts), (0, "batch 1 dropped invalid 0 5\n", [2]))
        self.assertEqual(run(["state"], block, [tried(apply)])[1].decode(), f"{HERE} {b'good'.hex()}\n")

    def test_handler_that_fails(self):
        """Another exception is INTERNAL_ERROR: nothing is told as invalid, and both ends say what happened."""

        def apply(transaction, state):
            state.get(HERE)
            raise ValueError("a mistake")

        status, block, notes, (failed,) = publish([[sent("one")]], tried(apply))
        self.assertEqual((status, block, notes), (6, b"", "fault 6 peer\n"))
        self.assertIsInstance(failed, processor.HandlerFailed)
        self.assertEqual(repr(failed.__cause__), "ValueError('a mistake')")

    def test_undeclared(self):
        """A request of an address that is not declared refuses the transaction, where the function does not go on."""
        caught = []

        def apply(transaction, state):
            try:
                state.get(ELSEWHERE)
            except processor.AuthorizationError:
                caught.append(transaction.payload)
                if transaction.payload == b"stops":
                    raise
            state.set(HERE, b"here")

        status, _, notes, counts = publish([[sent("stops")], [sent("goes on")]], tried(apply))
        self.assertEqual((status, notes, counts), (0, "batch 0 dropped invalid 0 5\n", [2]))
        self.assertEqual(caught, [b"stops", b"goes on"])

    def test_two_remotes_and_four_workers(self):
        """The block is that of one processor and one worker, and both processors serve."""

        def slowly(transaction, state):
            time.sleep(0.01)
            names.apply(transaction, state)

        batches = [[claim(f"n{at}")] for at in range(40)]
        slow = names.FAMILY._replace(apply=slowly)
        status, block, notes, counts = publish(batches, slow, remotes=2, workers=4)
        self.assertEqual((status, notes), (0, ""))
        self.assertTrue(sum(counts) >= 40 and min(counts) > 0, counts)
        self.assertEqual(publish(batches, names.FAMILY)[1], block)

    def test_too_long(self):
        """A message that is too long is not sent, and is told as a fault of the processor."""

        def apply(transaction, state):
            state.set(HERE, b"x" * 9_000_000)

        status, _, notes, (failed,) = publish([[sent("one")]], tried(apply))
        self.assertEqual((status, notes), (6, "fault 6 peer\n"))
        self.assertIsInstance(failed.__cause__, processor.TooLong)
        self.assertRegex(str(failed.__cause__), "of 9000.* bytes, and version 2 of the link allows 8388608")

    def test_program(self):
        """What the program demo/names.py prints, and its status."""
        port = str(free_port())
        with tempfile.NamedTemporaryFile() as file:
            file.write(record(1, written_batch([claim("a"), claim("b")])[1]))
            file.flush()
            words = ["publish", "--batches", file.name, "--listen", port, "--remotes", "1"]
            with subprocess.Popen([*PROGRAM, *words], stdin=subprocess.DEVNULL, stdout=subprocess.DEVNULL):
                done = self.program(port)
        self.assertEqual((done.returncode, done.stdout, done.stderr), (0, "2 transactions answered\n", ""))
        for words in [], ["0"], ["70000"], ["²"], [port, port]:
            done = self.program(*words)
            self.assertEqual((done.returncode, done.stdout), (1, ""))
            self.assertTrue(done.stderr.startswith("usage: python3 -B "))

    def program(self, *words):
        call = [sys.executable, "-B", os.path.join(DEMO, "names.py"), *words]
        return subprocess.run(call, capture_output=True, text=True, timeout=20)


def framed(kind, correlation, content):
    message = number(1, kind) + record(2, correlation) + record(3, content)
    return struct.pack(">I", len(message)) + message


ENDS = [
    (processor.Ended, "the validator ended the link", b""),
    (processor.CutShort, "the link ended within a message", b"\0\0"),
    (processor.CutShort, "the link ended within a message", framed(8, "1", b"")[:-1]),
    (processor.CutShort, "a message ended within a field", framed(8, "1", b"\x12\x05a")),
    (processor.CutShort, "a message ended within a number", framed(8, "1", b"\x90")),
    (processor.NotTheAnswer, "not the answer to request .: type 10", framed(10, "1", number(2, 1))),
    (processor.NotTheAnswer, "correlation id '2'", framed(8, "2", number(2, 1))),
    (processor.LinkError, "1751477356 bytes is announced", b"hello"),
]


class Broken(unittest.TestCase):
    """Links that break, without the program."""

    def fails(self, kind, text, ask, answer=b""):
        """A call of a link fails in this way, where the validator sends these bytes and ends the link."""
        validator, near = socket.socketpair()
        with validator, near:
            validator.sendall(answer)
            validator.shutdown(socket.SHUT_WR)
            with self.assertRaisesRegex(kind, text):
                ask(processor.Link(near))

    def test_ends(self):
        """What may come in place of an answer to a get."""
        for kind, text, answer in ENDS:
            with self.subTest(text, answer=answer):
                self.fails(kind, text, lambda link: processor.State(link, b"c").get(HERE), answer)

    def test_end_within_a_transaction(self):
        """It is no failure of the function."""
        request = record(1, record(3, "names") + record(4, "1.0")) + record(2, "claim a")
        self.fails(processor.Ended, "ended", lambda link: processor.process(link, [names.FAMILY], "1", request))

    def test_too_long_on_version_1(self):
        text, much = "version 1 of the link allows 1048576", b"x" * 1_048_576
        self.fails(processor.TooLong, text, lambda link: processor.State(link, b"c").set(HERE, much))

    def test_refused_family(self):
        text, refused = "the validator refused the family names 1.0", framed(2, "1", number(1, 2))
        self.fails(processor.LinkError, text, lambda link: processor.register(link, [names.FAMILY]), refused)

    def test_nobody_listens(self):
        port = free_port()
        with self.assertRaisesRegex(processor.NobodyListens, f"nobody listens on port {port}"):
            processor.connect(port, seconds=0)


if __name__ == "__main__":
    PROGRAM.append(usage.program(__doc__))
    unittest.main()
