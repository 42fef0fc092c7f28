"""Measures programs over single blocks of transactions that declare much, side by side.

Run by hand, never by the gate, after `rt run` has built the program: python3 bench/wide.py PROGRAM..

In the first block each of 220 transactions declares 500 inputs and 500 outputs. In the second each of 4,000 reads the empty
prefix, which covers every address, and writes its own. Each sets a new name; ten stand in a batch. For each program it
prints the least seconds of processor of five runs that take turns.
"""

import os
import subprocess
import sys
import tempfile

sys.path.insert(0, os.path.join(os.path.dirname(__file__), "..", "tools"))

import counters
import usage
from generator import EMPTY, grown

RUNS = 5


def declared(field, prefixes):
    """The prefixes, also an empty one, as a repeated field."""
    return b"".join(counters.varint(field << 3 | 2) + counters.varint(len(text)) + text.encode() for text in prefixes)


def transaction(name, inputs, outputs):
    """A transaction that sets a name, as its id and its content."""
    payload = counters.operation("set", name, 1)
    header = counters.record(1, counters.KEY) + counters.record(3, "intkey") + counters.record(4, "1.0")
    header += declared(5, inputs) + declared(7, outputs)
    header += counters.record(9, counters.sha512(payload)) + counters.record(10, counters.KEY)
    mark = counters.mark(header)
    return mark, counters.record(1, header) + counters.record(2, mark) + counters.record(3, payload)


def stream(transactions, names):
    """One first block of these transactions, ten in a batch."""
    made, counters.transaction = counters.transaction, transaction
    batches = [transactions[at : at + 10] for at in range(0, len(transactions), 10)]
    tree = grown(EMPTY, {name: 1 for name in names})
    _, frame = counters.block(batches, tree.hash)
    counters.transaction = made
    return frame


def many_declared(count):
    names = [f"n{index}" for index in range(count)]
    others = [counters.address(f"o{index}") for index in range(499)]
    own = [counters.address(name) for name in names]
    return stream([(name, [at, *others], [at, *others]) for name, at in zip(names, own)], names)


def all_read(count):
    names = [f"n{index}" for index in range(count)]
    return stream([(name, [""], [counters.address(name)]) for name in names], names)


def measure(program, frames):
    """The seconds of processor of one run, and its report."""
    with tempfile.TemporaryFile() as file:
        file.write(frames)
        file.seek(0)
        child = subprocess.Popen([program, "apply", "--workers", "1"], stdin=file, stdout=subprocess.PIPE)
        report = child.stdout.read()
        _, status, usage = os.wait4(child.pid, 0)
    if status != 0 or b" committed " not in report:
        sys.exit(f"{program}: status {status}, {report[:200]}")
    return usage.ru_utime + usage.ru_stime, report


def main():
    usage.words(__doc__, 1, float("inf"))
    programs = sys.argv[1:]
    for told, frames in (("220 of 1,000 declared", many_declared(220)), ("4,000 that read all", all_read(4000))):
        runs = [[measure(program, frames) for program in programs] for _ in range(RUNS)]
        if len({report for turn in runs for _, report in turn}) != 1:
            sys.exit("the reports differ")
        for index, program in enumerate(programs):
            seconds = min(turn[index][0] for turn in runs)
            print(f"{told}: {program}: {seconds:.3f} s")


if __name__ == "__main__":
    main()
