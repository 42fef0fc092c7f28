"""Holds a program with the command line of `sawval` against the cases of this repository, byte for byte.

Usage, from the top of the repository: python3 -B conformance/run.py PROGRAM [--only TEXT] [--jobs N] [--seconds N]

Each case is run as its words say, and, where they do not say how many workers there are, by 1, 3 and 64 of them, too.
What differs is told with the first byte that does. --only takes the cases whose names have the text, --jobs runs so many
side by side (without it as many as there are processors), and --seconds ends a run that takes longer (without it 120).
The last lines have the counts: what was left out, and why. The status is 0 only if nothing differs, and 2 where PROGRAM
is no program or no case has the text in its name.
"""

import argparse
import contextlib
import hashlib
import os
import re
import signal
import socket
import struct
import subprocess
import sys
import tempfile
import threading
import time
from collections import Counter
from concurrent.futures import ThreadPoolExecutor

DATA = os.path.join(os.path.dirname(os.path.abspath(__file__)), "..", "crates", "saw_cases", "data")
WORKERS = ("1", "3", "64")
APPLIED_BY = ("1", "2", "8")

# Files of a case that a shell and a socket cannot make, and what they stand for.
LEFT_OUT = {
    "fail_reads": "a read that fails",
    "fail_writes": "a write that fails",
    "fail_notes": "a write of the notes that fails",
    "fail_fetches": "a file that cannot be fetched",
    "processors": "processors that play a family of their own",
}


def content(*parts):
    with open(os.path.join(*parts), "rb") as file:
        return file.read()


def is_there(*parts):
    return os.path.exists(os.path.join(*parts))


def numbers(*parts):
    return [int(line) for line in content(*parts).split()] if is_there(*parts) else []


# What a case gives.


def with_repeats(data, parts):
    """The bytes with parts of them again and again: where each begins and ends, and how often it stands."""
    out, done = b"", 0
    for begin, end, count in zip(parts[::3], parts[1::3], parts[2::3]):
        out += data[done:begin] + data[begin:end] * count
        done = end
    return out + data[done:]


def with_zeros(data, runs):
    """The bytes with zeros among them: a place, and how many stand before it."""
    out, done = b"", 0
    for at, count in zip(runs[::2], runs[1::2]):
        out += data[done:at] + bytes(count)
        done = at
    return out + data[done:]


class Case:
    def __init__(self, name):
        self.name, self.folder = name, os.path.join(DATA, "cases", name)
        self.words = content(self.folder, "words").decode().splitlines()
        self.stream = with_zeros(content(self.folder, "stdin"), numbers(self.folder, "stream_zeros"))
        self.peer = content(self.folder, "peer") if is_there(self.folder, "peer") else None

    def left_out(self):
        return next((why for file, why in LEFT_OUT.items() if is_there(self.folder, file)), None)

    def names_workers(self):
        return any(word in ("generate", "check") or word.startswith("--workers") for word in self.words)

    def files(self):
        """The files that the words name, by their names."""
        below, found = os.path.join(self.folder, "files"), {}
        repeats, zeros = numbers(self.folder, "repeats"), numbers(self.folder, "zeros")
        for word in self.words:
            name = word.split("=", 1)[-1]
            if name and is_there(below, name):
                found[name] = with_zeros(with_repeats(content(below, name), repeats), zeros)
        return found


# Runs.


def free_port():
    with socket.socket() as one:
        one.bind(("127.0.0.1", 0))
        return one.getsockname()[1]


def named_port(words):
    """The port that the words name, or none."""
    found = re.search(r"--listen[= ](\d+)", " ".join(words))
    return int(found[1]) if found else None


def connected(child, port, until):
    """A connection to the port that the child opens; none once it has ended."""
    while True:
        try:
            return socket.create_connection(("127.0.0.1", port))
        except OSError:
            if child.poll() is not None or time.monotonic() > until:
                return None
            time.sleep(0.02)


def received(link, sent):
    """Keeps what comes, until the other end closes."""
    with contextlib.suppress(OSError):
        while part := link.recv(1 << 16):
            sent.append(part)


def play(child, port, frames, sent):
    """A processor that sends these frames at once, and keeps what it is sent, also where its frames are not all read."""
    link = connected(child, port, time.monotonic() + 10)
    if link is None:
        return
    with link:
        reader = threading.Thread(target=received, args=(link, sent))
        reader.start()
        with contextlib.suppress(OSError):
            link.sendall(frames)
            link.shutdown(socket.SHUT_WR)
        reader.join()


class Unusable(Exception):
    """Why nothing can be run."""


class Said:
    """Output, notes and status of a run, and what was sent to a processor; `how` are further words of Popen."""

    def __init__(self, program, words, stream, files=(), frames=None, seconds=120, **how):
        port, sent, listen = named_port(words), [], []
        if frames is not None and port is None:
            port = free_port()
            listen = ["--listen", str(port), "--remotes", "1"]
        with tempfile.TemporaryDirectory() as folder:
            for name, data in dict(files).items():
                os.makedirs(os.path.dirname(os.path.join(folder, name)) or folder, exist_ok=True)
                with open(os.path.join(folder, name), "wb") as file:
                    file.write(data)
            try:
                child = subprocess.Popen(
                    [program, *words, *listen],
                    stdin=subprocess.PIPE,
                    stdout=subprocess.PIPE,
                    stderr=subprocess.PIPE,
                    cwd=folder,
                    **how,
                )
            except OSError as error:
                raise Unusable(f"{program} is no program: {error.strerror}") from None
            processor = None
            if frames is not None:
                processor = threading.Thread(target=play, args=(child, port, frames, sent))
                processor.start()
            try:
                self.output, self.notes = child.communicate(stream, seconds)
            except subprocess.TimeoutExpired:
                child.kill()
                self.output, self.notes = child.communicate()
            if processor:
                processor.join()
        self.status, self.sent = str(child.returncode), b"".join(sent)
        if child.returncode < 0:
            self.status = f"ended by {signal.Signals(-child.returncode).name}"


def place(wanted, got):
    """The first byte that differs, with what stands there."""
    at = next((at for at, (one, two) in enumerate(zip(wanted, got)) if one != two), min(len(wanted), len(got)))
    return f"differs at byte {at}: {wanted[at : at + 40]!r} is wanted, {got[at : at + 40]!r} is said"


def differences(case, said):
    """What differs from what is stored."""
    if is_there(case.folder, "stdout"):
        wanted = content(case.folder, "stdout")
        if said.output != wanted:
            yield f"output {place(wanted, said.output)}"
    elif hashlib.sha512(said.output).hexdigest() != content(case.folder, "digest").decode().strip():
        yield "output has another SHA-512"
    notes, status = content(case.folder, "stderr"), content(case.folder, "status").decode().strip()
    if said.notes != notes:
        yield f"notes {place(notes, said.notes)}"
    if said.status != status:
        yield f"status {status} is wanted, {said.status} is said"
    if is_there(case.folder, "sent") and said.sent != content(case.folder, "sent"):
        yield f"what is sent {place(content(case.folder, 'sent'), said.sent)}"


def applied(program, case, output, seconds):
    """What differs of `apply` over the stream with the output behind it."""
    wanted = content(case.folder, "applied")
    for workers in APPLIED_BY:
        words = ["apply", "--workers", workers]
        said = Said(program, words, case.stream + output, frames=case.peer, seconds=seconds)
        if (said.output, said.notes, said.status) != (wanted, b"", "0"):
            yield f"applied by {workers} workers: output {place(wanted, said.output)}, status {said.status}"


def tried(program, case, seconds):
    """The lines on what differs; none where the case is passed."""
    runs = [[]] + ([] if case.names_workers() else [["--workers", count] for count in WORKERS])
    for more in runs:
        said = Said(program, case.words + more, case.stream, case.files(), case.peer, seconds)
        found = list(differences(case, said))
        if found:
            return [f"{' '.join(more) or 'as stored'}: {each}" for each in found]
    if is_there(case.folder, "applied"):
        return list(applied(program, case, said.output, seconds))
    return []


# Invalid arguments.


def words_in(line):
    return [word[1:] for word in line.split("\t") if word.startswith("+")]


def is_help(words):
    return any(re.fullmatch("-h|--help|help|-V|--version", word) for word in words)


def is_live(words):
    """Whether a program that has readers takes the words and waits for them; a run without readers refuses them."""
    found = re.fullmatch(r"apply --live[= ](\d+) --readers[= ](\d+)", " ".join(words))
    return bool(found) and 1 <= int(found[1]) <= 65535 and 1 <= int(found[2]) <= 64


def refused(program, words, seconds):
    said = Said(program, words, b"", seconds=seconds)
    if (said.output, said.notes, said.status) == (b"", b"fault 2 words\n", "2"):
        return []
    return [f"no refusal of the words: output {said.output[:40]!r}, notes {said.notes[:40]!r}, status {said.status}"]


def jobs_of(given):
    """What is run, each with its name; and why cases are left out."""
    jobs, left = [], Counter()
    for name in sorted(os.listdir(os.path.join(DATA, "cases"))):
        case = Case(name)
        if given.only not in name:
            continue
        if why := case.left_out():
            left[why] += 1
        else:
            jobs.append((name, lambda case=case: tried(given.program, case, given.seconds)))
    for line in content(DATA, "words.txt").decode().splitlines():
        words = words_in(line)
        if given.only not in " ".join(words):
            continue
        if is_help(words):
            left["help or version is asked for"] += 1
        elif is_live(words):
            left["readers are waited for"] += 1
        else:
            jobs.append((repr(words), lambda words=words: refused(given.program, words, given.seconds)))
    return jobs, left


def positive(text):
    """A number from 1 on."""
    if not text.isdecimal() or not int(text):
        raise argparse.ArgumentTypeError(f"{text!r} is no number from 1 on")
    return int(text)


def arguments():
    shape = argparse.RawDescriptionHelpFormatter
    parser = argparse.ArgumentParser(description=__doc__, formatter_class=shape, usage=argparse.SUPPRESS)
    parser.add_argument("program", metavar="PROGRAM", type=os.path.abspath)
    parser.add_argument("--only", default="", metavar="TEXT")
    parser.add_argument("--jobs", type=positive, default=os.cpu_count(), metavar="N")
    parser.add_argument("--seconds", type=positive, default=120, metavar="N")
    return parser.parse_args()


def run(given):
    """Runs the cases, and gives the status."""
    if not os.path.isfile(given.program) or not os.access(given.program, os.X_OK):
        raise Unusable(f"{given.program} is no program")
    jobs, left = jobs_of(given)
    if not jobs and not left:
        raise Unusable(f"no case has {given.only!r} in its name")
    failed = 0
    with ThreadPoolExecutor(given.jobs) as pool:
        for (name, _), found in zip(jobs, pool.map(lambda job: job[1](), jobs)):
            failed += bool(found)
            for line in found:
                print(f"{name}: {line}", flush=True)
    for why, count in sorted(left.items()):
        print(f"left out {count}: {why}")
    print(f"{len(jobs) - failed} passed, {failed} failed, {sum(left.values())} left out")
    return 1 if failed else 0


def main():
    given = arguments()
    try:
        return run(given)
    except Unusable as why:
        print(why, file=sys.stderr)
        return 2


if __name__ == "__main__":
    sys.exit(main())
