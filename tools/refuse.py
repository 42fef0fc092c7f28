"""Refuses memory to a built program, call by call or by a limit of its addresses, and judges how each run ends.

Usage, from the top of the repository: refuse.py PROGRAM [CASE ..] [--step K] [--onward] [--workers N] [--jobs N]
                                       refuse.py PROGRAM --limits

Needs Linux, the C library of GNU and `cc`, which builds tools/refuse.c into a temporary folder.

The first form takes cases of crates/saw_cases/data/cases by name, or those of CASES below. It counts the allocations of
a run, and then runs the case once for each n and refuses the n-th; with --step K each K-th n only, and with --onward the
n-th and all behind it. There is one worker without --workers, which a case that names its own does not take. --jobs runs
so many side by side, but for cases with a processor, which take ports.

The second form judges the stream of STREAM by 1 and by 4 workers under LIMITS limits of addresses each.

A run ends well with its own answer (status, output and notes), or with status 7, a prefix of the output, and a prefix of
the notes with nothing or a prefix of the line `fault 7 memory` behind it; a line that is cut has no other behind it. All
else is told with its case and n on standard error, where the numbers of the other endings that are no 7 with its line
stand too, and ends this tool with status 1. The table is in the form of docs/TESTING.md.
"""

import argparse
import collections
import functools
import os
import resource
import subprocess
import sys
import tempfile
from concurrent.futures import ThreadPoolExecutor

HERE = os.path.dirname(os.path.abspath(__file__))
sys.path.insert(0, os.path.join(HERE, "..", "conformance"))
from run import Case, Said, differences, place  # noqa: E402

CASES = (
    "words-taken-00",
    "genesis-empty",
    "failed-child-then-good",
    "head-lower-first",
    "head-lower-second",
    "fork-switch",
    "stream-truncated-after-block",
    "state-notes-refused-block",
    "fork-switch-receipts",
    "operator-first-block",
    "operator-receipts",
    "operator-status",
    "operator-publish",
    "publish-three-batches-workers-1",
    "publish-beside-refused-block",
    "dependency-on-later-second",
    "publish-dependency-on-later",
    "publish-attest-before-list",
    "settings-vote",
    "settings-vote-after-end",
    "settings-vote-state",
    "prove-present",
    "check-present",
    "check-short",
    "events-settings",
    "xo-create-and-delete",
    "peer-sets-on-version-2",
    "generate-small",
)
STREAM = ("generate", "--start", "7", "--blocks", "4", "--batches", "2500")
LIMITS = 40
LEAST, STEP = 3 << 20, 1.14
LOADED = 4 << 20
LINE = b"fault 7 memory\n"

# How runs end. Below the limit LOADED the system may not load the program; that is no ending of the program.
WITH, WITHOUT, OWN = "7 with the whole line", "7 without it", "Own answer"
UNLOADED, OTHER = "Not loaded", "Anything else"


def is_prefix_and_line(notes, own):
    """Whether the notes are a prefix of the own ones, with nothing or a prefix of the line behind whole lines of it."""
    if own.startswith(notes):
        return True
    at = os.path.commonprefix([own, notes]).rfind(b"\n") + 1
    return LINE.startswith(notes[at:])


def ending(own, said):
    if (said.status, said.output, said.notes) == (own.status, own.output, own.notes):
        return OWN
    if said.status != "7" or not own.output.startswith(said.output) or not is_prefix_and_line(said.notes, own.notes):
        return OTHER
    return WITH if said.notes.endswith(LINE) else WITHOUT


def told(own, said):
    """What a run said, in short."""
    output = "the own output" if said.output == own.output else f"output {place(own.output, said.output)}"
    return f"status {said.status}, {output}, notes {said.notes[:200]!r}"


def note(line):
    print(line, file=sys.stderr, flush=True)


class Table:
    """How many runs of each case ended in which way, and which were bad."""

    def __init__(self, first, endings):
        self.endings, self.bad = endings, 0
        self.line(*first, "Runs", *endings)
        self.line(*["---"] * (len(first) + 1 + len(endings)))

    def line(self, *cells):
        print("|", " | ".join(map(str, cells)), "|", flush=True)

    def case(self, first, name, ends):
        """Adds a line for pairs of a number and what the run with it came to: its ending, and what it said."""
        found = collections.Counter(kind for _, (kind, _) in ends)
        self.line(*first, len(ends), *[found[kind] for kind in self.endings])
        for kind in (WITHOUT, OWN, UNLOADED):
            at = [n for n, (each, _) in ends if each == kind]
            if at:
                note(f"{name}: {kind}: {' '.join(map(str, at))}")
        for n, (kind, said) in ends:
            if kind == OTHER:
                note(f"{name} {n}: {kind}: {said}")
        self.bad += found[OTHER]


# Calls that are refused.


def built(folder):
    library = os.path.join(folder, "refuse.so")
    source = os.path.join(HERE, "refuse.c")
    subprocess.run(["cc", "-O2", "-Wall", "-Wextra", "-shared", "-fPIC", "-o", library, source], check=True)
    return library


class Refusing:
    """A case that is run with calls refused."""

    def __init__(self, program, library, case, workers):
        self.program, self.library, self.case, self.files = program, library, case, case.files()
        self.words = case.words + ([] if case.names_workers() else ["--workers", str(workers)])

    def run(self, **settings):
        env = {**os.environ, "LD_PRELOAD": self.library, **settings}
        return Said(self.program, self.words, self.case.stream, self.files, self.case.peer, env=env)

    def counted(self):
        """The run with nothing refused, and how many allocations it made."""
        with tempfile.NamedTemporaryFile() as file:
            own = self.run(REFUSE_COUNT=file.name)
            count = int.from_bytes(file.read(8), sys.byteorder)
        for line in differences(self.case, own):
            sys.exit(f"{self.case.name}: {line}, where nothing is refused")
        return own, count

    def end(self, own, setting, n):
        said = self.run(**{setting: str(n)})
        return ending(own, said), told(own, said)


def refuse_calls(given):
    table = Table(["Case", "Allocations"], [WITH, WITHOUT, OWN, OTHER])
    setting = "REFUSE_FROM" if given.onward else "REFUSE_AT"
    with tempfile.TemporaryDirectory() as folder, ThreadPoolExecutor(max(1, given.jobs)) as pool:
        library = built(folder)
        for name in given.cases or CASES:
            case = Case(name)
            if why := case.left_out():
                note(f"{name}: left out: {why}")
                continue
            one = Refusing(given.program, library, case, given.workers)
            own, count = one.counted()
            numbers = range(1, count + 1, given.step)
            side_by_side = pool.map if case.peer is None else map
            ends = list(zip(numbers, side_by_side(functools.partial(one.end, own, setting), numbers)))
            table.case([f"`{name}`", count], name, ends)
    return table.bad


# Addresses that are limited.


def within(limit):
    resource.setrlimit(resource.RLIMIT_AS, (limit, limit))


def end_within(program, words, stream, own, limit):
    try:
        said = Said(program, words, stream, preexec_fn=lambda: within(limit))
    except OSError as e:
        return UNLOADED if limit < LOADED else OTHER, str(e)
    if limit < LOADED and (said.status == "127" or said.status.startswith("ended by")):
        return UNLOADED, told(own, said)
    return ending(own, said), told(own, said)


def limit_addresses(given):
    table = Table(["Workers", "Limits"], [UNLOADED, WITH, WITHOUT, OWN, OTHER])
    limits = [int(LEAST * STEP**at) for at in range(LIMITS)]
    stream = subprocess.run([given.program, *STREAM], stdout=subprocess.PIPE, check=True).stdout
    for workers in ("1", "4"):
        words = ["apply", "--workers", workers]
        own = Said(given.program, words, stream)
        if own.status != "0":
            sys.exit(f"by {workers} workers: {told(own, own)}, where nothing is limited")
        ends = [(limit >> 10, end_within(given.program, words, stream, own, limit)) for limit in limits]
        table.case([workers, f"{limits[0] >> 10} to {limits[-1] >> 10} KiB"], f"--workers {workers}, KiB", ends)
    return table.bad


def arguments():
    shape = argparse.RawDescriptionHelpFormatter
    parser = argparse.ArgumentParser(description=__doc__, formatter_class=shape, usage=argparse.SUPPRESS)
    parser.add_argument("program", metavar="PROGRAM", type=os.path.abspath)
    parser.add_argument("cases", nargs="*", metavar="CASE")
    parser.add_argument("--step", type=int, default=1, metavar="K")
    parser.add_argument("--onward", action="store_true")
    parser.add_argument("--workers", type=int, default=1, metavar="N")
    parser.add_argument("--limits", action="store_true")
    parser.add_argument("--jobs", type=int, default=1, metavar="N")
    return parser.parse_args()


def main():
    given = arguments()
    bad = limit_addresses(given) if given.limits else refuse_calls(given)
    return 1 if bad else 0


if __name__ == "__main__":
    sys.exit(main())
