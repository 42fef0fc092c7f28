"""Tests of demo/follow.py, against a built program and streams of the cases.

Usage: python3 -B demo/test_follow.py PROGRAM [NAME ..]

PROGRAM is that of `sawval`. With names such as `Followed.test_switch` only these tests are run.
"""

import os
import shlex
import subprocess
import sys
import tempfile
import unittest

DEMO = os.path.dirname(os.path.abspath(__file__))
CASES = os.path.join(DEMO, "..", "crates", "saw_cases", "data", "cases")
sys.path[:0] = [DEMO, os.path.join(DEMO, "..", "tools")]

import follow
import usage
from processor import number, record

PROGRAM = []


def content(case, name="stdin"):
    with open(os.path.join(CASES, case, name), "rb") as file:
        return file.read()


def frames(stream):
    """The stream's frames."""
    while stream:
        size = 4 + int.from_bytes(stream[:4], "big")
        yield stream[:size]
        stream = stream[size:]


class Followed(unittest.TestCase):
    def setUp(self):
        folder = tempfile.TemporaryDirectory()
        self.addCleanup(folder.cleanup)
        self.file, self.state = (os.path.join(folder.name, name) for name in ("blocks", "state"))

    def words(self, *options):
        program = shlex.join(PROGRAM)
        return [sys.executable, follow.__file__, "--command", program, "--state", self.state, *options, self.file]

    def put(self, stream, mode="wb"):
        with open(self.file, mode) as file:
            file.write(stream)

    def told(self, stream, *options, status=0):
        """What is told of the stream by one look at it; of another status the notes."""
        self.put(stream)
        done = subprocess.run(self.words("--once", *options), capture_output=True, text=True, timeout=20)
        self.assertEqual(done.returncode, status, done.stderr)
        return done.stderr if status else done.stdout

    def look(self, stream):
        """How each line begins."""
        return [" ".join(line.split()[:3])[:20] for line in self.told(stream).splitlines()]

    def test_filter(self):
        """One of three events of a type, with its attribute."""
        wish = ["--type", "settings/update", "--key", "updated", "--value", "sawtooth.consensus.algorithm"]
        told = self.told(content("events-settings"), *wish)
        self.assertRegex(told, "^block 2 5660.{124} settings/update updated=sawtooth.consensus.algorithm\n$")

    def test_switch(self):
        """Frame by frame: no head, one cut within, one on another branch, which becomes the head's with the next."""
        first, left, other, last = frames(content("fork-switch"))
        self.assertEqual(self.look(b""), [])
        self.assertEqual(self.look(first), ["block 0 3a2ab5860569", "1cf12602860c652bf08d"])
        self.assertEqual(self.look(first + left[:-1]), [])
        self.assertEqual(self.look(first + left)[:1], ["block 1 507f7630fe1d"])
        self.assertEqual(self.look(first + left + other), [])
        told = ["withdrawn block 1", "block 1 8e32281abe88", "1cf126b5ef7b18d1ff41"]
        self.assertEqual(self.look(first + left + other + last)[1:4], told)
        self.assertEqual(self.look(first + left + other + last), [])

    def test_grows(self):
        """A file that grows while it is followed."""
        first, *others = frames(content("xo-delete"))
        self.put(first)
        with subprocess.Popen(self.words(), stdout=subprocess.PIPE, text=True) as process:
            self.addCleanup(process.kill)
            self.assertRegex(process.stdout.readline(), "^block 0 ")
            self.put(b"".join(others), "ab")
            lines = [process.stdout.readline() for _ in range(13)]
            self.assertRegex(lines[-1], "^  5b7349.* delete$")
            process.kill()

    def test_state(self):
        """The changes of all blocks leave the state of the head."""
        for case in ("fork-switch", "xo-game", "settings-vote"):
            stream, state = content(case), {}
            for event in follow.look(follow.Validator(PROGRAM), stream, []).events:
                state.update(follow.changes(event))
            left = "".join(f"{at} {state[at].hex()}\n" for at in sorted(state) if state[at] is not None)
            self.assertEqual(left, content(f"{case}-state", "stdout").decode(), case)

    def test_refused(self):
        """What is no stream, and a stream of another ledger."""
        self.assertEqual(self.told(b"hello", status=3), "fault 3 toolong 1751477356\n")
        self.look(content("fork-switch"))
        self.assertIn("none of the followed blocks", self.told(content("xo-delete"), status=1))

    def test_own_event(self):
        """What a transaction adds under a type of blocks is not taken for the block's own event."""
        change = record(1, record(1, "aa") + record(2, b"x") + number(3, 1))
        lines = [f"{name} {(record(1, follow.DELTA) + record(3, data)).hex()}" for name, data in (("b", change), ("b", b""))]
        (own,) = follow.firsts(map(follow.event, lines))
        self.assertEqual(list(follow.changes(own)), [("aa", b"x")])


if __name__ == "__main__":
    PROGRAM.append(usage.program(__doc__))
    unittest.main()
