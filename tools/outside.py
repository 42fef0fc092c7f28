"""Runs each command with ends that fail, and compares what it says and its status with docs/OPERATING.md.

Usage: python3 -B tools/outside.py PROGRAM

The ends are those of the system: an output or notes on a full disk (/dev/full), closed, or a pipe that nobody reads; an
input that is closed, a folder, or whose writer is killed in a frame; files that are missing, a folder, or too long; SIGTERM
while the run waits for input; little memory (`ulimit -v`) and a small stack (`ulimit -s`). Each output must be a prefix of
that of the sound run. Prints a line for each case that differs, and the counts; the status is 0 only if none does.
"""

import os
import resource
import signal
import subprocess
import sys
import tempfile
import time

HERE = os.path.dirname(os.path.abspath(__file__))
sys.path.insert(0, HERE)

import usage
from applied import values

MEBIBYTE = 1 << 20
# The loader's own words for too little memory, and what it is ended by.
NOT_LOADED = {127, -signal.SIGSEGV, -signal.SIGABRT, -signal.SIGKILL}


def called(program, *words, data=b""):
    done = subprocess.run([program, *words], input=data, capture_output=True, check=False)
    return done.returncode, done.stdout, done.stderr


class Ends:
    """A program, sound arguments and inputs of each of its commands, and what differed."""

    def __init__(self, program, folder):
        self.program, self.folder = program, folder
        self.cases = self.wrong = 0
        stream = called(program, "generate", "--start", "1", "--blocks", "3", "--batches", "5")[1]
        lost = stream[4 : 4 + int.from_bytes(stream[:4], "big")]
        # A last block that comes again is refused, so that there is a note.
        self.stream = stream + len(lost).to_bytes(4, "big") + lost
        self.listing = self.path("list")
        subprocess.run([sys.executable, "-B", f"{HERE}/batches.py", self.listing, "intkey set outside 1"], check=True)
        line = called(program, "state", data=self.stream)[1].split()
        self.address, root = line[0].decode(), self.head_root()
        proof = called(program, "prove", "--address", self.address, data=self.stream)[1]
        self.proof = self.path("proof", proof)
        batch = values(values(lost, 3)[0], 2)[0].decode()
        self.commands = {
            "apply": ["apply"],
            "state": ["state"],
            "receipts": ["receipts"],
            "events": ["events", "--type", "sawtooth/state-delta"],
            "status": ["status", "--batch", batch],
            "prove": ["prove", "--address", self.address],
            "publish": ["publish", "--batches", self.listing],
            "check": ["check", "--root", root, "--address", self.address, "--proof", self.proof],
            "generate": ["generate", "--start", "1", "--blocks", "3", "--batches", "5"],
        }
        self.sound = {name: called(program, *words, data=self.stream) for name, words in self.commands.items()}

    def path(self, name, content=None):
        path = os.path.join(self.folder, name)
        if content is not None:
            with open(path, "wb") as file:
                file.write(content)
        return path

    def head_root(self):
        head = [line for line in called(self.program, "apply", data=self.stream)[1].split(b"\n") if line.startswith(b"head ")]
        return head[0].split()[-1].decode()

    def told(self, name, ended, sound, allowed):
        """Counts a case: its status and notes must be one of the allowed, and its output a prefix of the sound one."""
        self.cases += 1
        status, output, notes = ended
        if (status, notes) in allowed and sound.startswith(output):
            return
        self.wrong += 1
        print(f"{name}: status {status}, notes {notes[-100:]!r}, {len(output)} of {len(sound)} bytes")

    def run(self, words, **ends):
        """A run whose output and notes are read, where they are not among the ends."""
        ends.setdefault("stdout", subprocess.PIPE)
        ends.setdefault("stderr", subprocess.PIPE)
        data = None if "stdin" in ends else self.stream
        if data is not None:
            ends["stdin"] = subprocess.PIPE
        with subprocess.Popen([self.program, *words], **ends) as child:
            output, notes = child.communicate(data)
        return child.returncode, output or b"", notes or b""

    def outputs(self, name, words):
        _, sound, notes = self.sound[name]
        lost = {(5, notes + b"fault 5 write\n"), (5, b"fault 5 write\n")}
        with open("/dev/full", "wb") as full:
            self.told(f"{name}, full output", self.run(words, stdout=full), sound, lost)
            ended = self.run(words, stderr=full)
            self.told(f"{name}, full notes", ended, sound, {(5, b"")} if notes else {(self.sound[name][0], b"")})
        closed = self.run(words, stdout=None, preexec_fn=lambda: os.close(1))
        self.told(f"{name}, closed output", closed, sound, lost)
        away, kept = os.pipe()
        os.close(away)
        self.told(f"{name}, nobody reads", self.run(words, stdout=kept), sound, lost)
        os.close(kept)

    def inputs(self, name, words):
        _, sound, _ = self.sound[name]
        reads = name not in ("check", "generate")
        allowed = {(4, b"fault 4 read\n")} if reads else {(0, b"")}
        folder = os.open(self.folder, os.O_RDONLY)
        self.told(f"{name}, a folder as input", self.run(words, stdin=folder), sound, allowed)
        os.close(folder)
        closed = self.run(words, stdin=subprocess.DEVNULL, preexec_fn=lambda: os.close(0))
        self.told(f"{name}, closed input", closed, sound, allowed)
        if not reads:
            return
        with open(self.path("cut", self.stream[:-10]), "rb") as cut:
            status, output, notes = self.run(words, stdin=cut)
        last = notes.split(b"\n")[-2] if b"\n" in notes else b""
        self.told(f"{name}, a cut input", (status, output, b""), sound, {(3, b"")})
        self.told(f"{name}, the line of a cut input", (status, b"", last[:18]), sound, {(3, b"fault 3 truncated ")})
        self.told(f"{name}, ended while it waits", self.ended(words), sound, {(-signal.SIGTERM, b"")})

    def ended(self, words):
        """SIGTERM while it waits for the second frame."""
        with subprocess.Popen([self.program, *words], stdin=subprocess.PIPE, stdout=subprocess.PIPE, stderr=subprocess.PIPE) as child:
            child.stdin.write(self.stream[:100])
            child.stdin.flush()
            time.sleep(0.2)
            child.send_signal(signal.SIGTERM)
            output, notes = child.communicate()
        return child.returncode, output, notes

    def files(self, name, words):
        """Each file that the words name is missing, a folder, or too long."""
        long = self.path("long")
        with open(long, "wb") as file:
            file.truncate(64 * MEBIBYTE + 1)
        attested = {name: words}
        if name not in ("check", "generate"):
            attested[f"{name} with a list"] = [*words, "--attest", self.path("none", b"")]
        for said, given in attested.items():
            for option in ("--attest", "--batches", "--proof"):
                if option not in given or name == "generate" or (given is not words and option != "--attest"):
                    continue
                at = given.index(option) + 1
                for path, cause in ((self.path("absent"), b"missing"), (self.folder, b"failed"), (long, b"toolong")):
                    ended = called(self.program, *given[:at], path, *given[at + 1 :], data=self.stream)
                    self.told(f"{said}, {cause.decode()} file of {option}", ended, b"", {(11, b"fault 11 " + cause + b"\n")})

    def limits(self, name, words):
        status, sound, notes = self.sound[name]
        answers = {(status, notes), (7, b"fault 7 memory\n"), (7, b"")}
        for kibibytes in (3000, 4000, 5000, 6000, 8000, 12000, 20000, 40000, 80000, 400000):
            limit = kibibytes * 1024
            ended = self.run(words, preexec_fn=lambda: resource.setrlimit(resource.RLIMIT_AS, (limit, limit)))
            if ended[0] in NOT_LOADED:
                ended = (status, b"", notes)
            elif ended[0] == 7:
                ended = (7, ended[1], ended[2][-15:])
            self.told(f"{name}, {kibibytes} KiB of addresses", ended, sound, answers)
        stack = 128 * 1024
        ended = self.run(words, preexec_fn=lambda: resource.setrlimit(resource.RLIMIT_STACK, (stack, stack)))
        self.told(f"{name}, 128 KiB of stack", ended, sound, {(status, notes)})


def main():
    with tempfile.TemporaryDirectory() as folder:
        ends = Ends(os.path.abspath(usage.words(__doc__, 1)[0]), folder)
        for name, words in ends.commands.items():
            ends.outputs(name, words)
            ends.inputs(name, words)
            ends.files(name, words)
            ends.limits(name, words)
        print(f"{ends.cases} cases, {ends.wrong} differ")
        sys.exit(1 if ends.wrong else 0)


if __name__ == "__main__":
    main()
