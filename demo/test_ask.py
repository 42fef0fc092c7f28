"""Tests of `sawval apply --live` over sockets, against a built program: what readers are told, and readers that misbehave.

Usage: python3 -B demo/test_ask.py PROGRAM [NAME ..]

PROGRAM is that of `sawval`. With names such as `Beside.test_branches` only these tests are run.
"""

import contextlib
import os
import random
import socket
import subprocess
import sys
import threading
import time
import unittest

DEMO = os.path.dirname(os.path.abspath(__file__))
sys.path[:0] = [DEMO, os.path.join(DEMO, "..", "tools")]

import counters
import usage
from ask import Asked, frame, names_in
from generator import EMPTY, grown

PROGRAM = []
READERS = 64
BLOCKS = 1000
SECONDS = 120


def branches(blocks):
    """A stream of two branches behind one first block, each of which in turn overtakes the other by a block, and what each
    block leaves: names and values."""
    tree = grown(EMPTY, {"last": 0})
    name, stream = counters.block([[("set", "last", 0)]], tree.hash)
    left = {name: {"last": 0}}
    heads = [(tree, name, 0), (tree, name, 0)]
    for at in range(1, blocks):
        turn = at // 2 % 2
        tree, previous, number = heads[turn]
        more = {f"m{at}": at, "last": left[previous]["last"] + at}
        tree = grown(tree, more)
        operations = [("set", f"m{at}", at), ("inc", "last", at)]
        name, content = counters.block([operations], tree.hash, number + 1, previous)
        heads[turn] = tree, name, number + 1
        left[name] = left[previous] | more
        stream += content
    return stream, left


def free_port():
    with socket.create_server(("127.0.0.1", 0)) as listening:
        return listening.getsockname()[1]


def apply(stream):
    return subprocess.run([*PROGRAM, "apply"], input=stream, capture_output=True, check=True).stdout


class Run:
    """A run of `apply` beside so many readers; it is fed once all of them have connected."""

    def __init__(self, test, readers, stream):
        self.port = free_port()
        words = [*PROGRAM, "apply", "--live", str(self.port), "--readers", str(readers)]
        self.process = subprocess.Popen(words, stdin=subprocess.PIPE, stdout=subprocess.PIPE, stderr=subprocess.PIPE)
        for end in (self.process.stdout, self.process.stderr):
            test.addCleanup(end.close)
        test.addCleanup(self.process.kill)
        self.output, self.ended = [], threading.Event()
        threading.Thread(target=self.feed, args=[stream], daemon=True).start()
        threading.Thread(target=self.listen, daemon=True).start()

    def feed(self, stream):
        with contextlib.suppress(BrokenPipeError):
            self.process.stdin.write(stream)
            self.process.stdin.close()

    def listen(self):
        for line in self.process.stdout:
            self.output.append(line)
            if line.startswith(b"head "):
                self.ended.set()

    def status(self):
        return self.process.wait(SECONDS)


class Told(threading.Thread):
    """A reader that asks without pause until the stream has ended, and once more."""

    def __init__(self, run, names, seed):
        super().__init__(daemon=True)
        self.run_of, self.names, self.draws, self.answers, self.fault = run, names, random.Random(seed), [], None
        self.asked = Asked.connected(run.port)

    def run(self):
        try:
            with self.asked:
                while not self.run_of.ended.is_set():
                    self.ask()
                self.ask()
        except Exception as fault:  # noqa: BLE001: told by the test
            self.fault = fault

    def ask(self):
        name = self.draws.choice(self.names)
        self.answers.append((name, self.asked.ask(counters.address(name))))


class Beside(unittest.TestCase):
    def heads(self, output):
        """The ids and roots of the committed blocks, in order."""
        return [line.split()[4:6] for line in output.decode().splitlines() if " committed " in line]

    def is_true(self, reader, heads, left):
        """Each answer is one head's, with its value, and none goes back."""
        seen = -1
        for name, head in reader.answers:
            if head is None:
                self.assertEqual(seen, -1)
                continue
            self.assertGreaterEqual(head.number, seen)
            seen = head.number
            self.assertEqual([head.block, head.root], heads[seen])
            value = left[head.block].get(name)
            self.assertEqual(head.value and names_in(head.value), None if value is None else {name: value})
        return seen

    def test_branches(self):
        stream, left = branches(BLOCKS)
        names = ["last", *(f"m{at}" for at in range(1, BLOCKS))]
        run = Run(self, READERS, stream)
        readers = [Told(run, names, seed) for seed in range(READERS)]
        for reader in readers:
            reader.start()
        for reader in readers:
            reader.join(SECONDS)
        self.assertEqual(run.status(), 0)
        output = b"".join(run.output)
        self.assertEqual(output, apply(stream))
        heads = self.heads(output)
        for reader in readers:
            self.assertIsNone(reader.fault)
            self.assertEqual(self.is_true(reader, heads, left), len(heads) - 1)
        count = sum(len(reader.answers) for reader in readers)
        between = len({head.number for reader in readers for _, head in reader.answers if head})
        print(f"{count} answers of {between} of {len(heads)} heads", file=sys.stderr)

    def test_misbehaving(self):
        """Readers whose frames are too long, cut off or missing, who hang up, and who never read their answers."""
        stream, left = branches(200)
        run = Run(self, 7, stream)
        good = Told(run, ["last"], 1)
        ends = [socket.create_connection(("127.0.0.1", run.port)) for _ in range(6)]
        for end in ends:
            self.addCleanup(end.close)
        long, cut, gone, silent, foreign, deaf = ends
        good.start()
        long.sendall(frame(b"1" * 71))
        cut.sendall(frame(b"1" * 70)[:20])
        cut.shutdown(socket.SHUT_WR)
        gone.close()
        foreign.sendall(frame(b"hello") + frame(b""))
        foreign.shutdown(socket.SHUT_WR)
        deaf.setblocking(False)
        question = frame(counters.address("last").encode())
        with contextlib.suppress(BlockingIOError):
            while True:
                deaf.sendall(question * 1000)
        good.join(SECONDS)
        self.assertIsNone(good.fault)
        for end in (long, cut):
            end.settimeout(0.2)
            self.assertRaises(TimeoutError, end.recv, 1)
        self.assertEqual(foreign.recv(22, socket.MSG_WAITALL), frame(b"refused") * 2)
        self.assertIsNone(run.process.poll())
        silent.close()
        time.sleep(0.1)
        self.assertIsNone(run.process.poll())
        deaf.close()
        self.assertEqual(run.status(), 0)
        output = b"".join(run.output)
        self.assertEqual(output, apply(stream))
        self.assertEqual(run.process.stderr.read(), b"")
        heads = self.heads(output)
        self.assertEqual(self.is_true(good, heads, left), len(heads) - 1)

    def test_port_taken(self):
        with socket.create_server(("127.0.0.1", 0)) as listening:
            port = str(listening.getsockname()[1])
            words = [*PROGRAM, "apply", "--live", port, "--readers", "1"]
            done = subprocess.run(words, input=b"", capture_output=True, timeout=SECONDS)
        self.assertEqual((done.returncode, done.stdout), (6, b""))


if __name__ == "__main__":
    PROGRAM.append(usage.program(__doc__))
    unittest.main()
