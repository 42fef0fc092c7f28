"""Measures `sawval apply` over a first block of IntegerKey transactions, at one and at ten times the work.

Run by hand, never by the gate, after `rt run` has built the program:
python3 bench/bench.py crates/sawval/out/sawval [TRANSACTIONS]
"""

import os
import subprocess
import sys
import tempfile
import time

sys.path.insert(0, os.path.join(os.path.dirname(__file__), "..", "tools"))

import counters
import usage

# So many transactions stand in a batch.
BATCH = 10


def stream(transactions):
    """A first block that sets so many names, and what the program must say of it."""
    sets = [("set", f"n{index}", index) for index in range(transactions)]
    batches = [sets[at : at + BATCH] for at in range(0, transactions, BATCH)]
    root_hash = counters.root({name: value for _, name, value in sets})
    name, frame = counters.block(batches, root_hash)
    return frame, f"block 0 committed 0 {name} {root_hash} {len(batches)} {transactions}\n"


def measure(program, transactions):
    """The seconds and the peak of memory, in KiB, of one run."""
    frame, line = stream(transactions)
    with tempfile.TemporaryFile() as file, tempfile.TemporaryFile() as output:
        file.write(frame)
        file.seek(0)
        begin = time.monotonic()
        child = subprocess.Popen([program, "apply"], stdin=file, stdout=output)
        _, status, usage = os.wait4(child.pid, 0)
        seconds = time.monotonic() - begin
        output.seek(0)
        told = output.read().decode()
    agrees = os.waitstatus_to_exitcode(status) == 0 and told.startswith(line)
    return seconds, usage.ru_maxrss, len(frame), agrees


def main():
    usage.words(__doc__, 1, 2)
    program = sys.argv[1]
    once = int(sys.argv[2]) if len(sys.argv) > 2 else 1000
    results = [measure(program, once * times) for times in (1, 10)]
    for times, (seconds, memory, size, agrees) in zip((1, 10), results):
        count = once * times
        print(
            f"{count} transactions, {size} bytes: {seconds:.2f} s, {count / seconds:.0f} transactions a second,"
            f" {memory} KiB at most, {'as expected' if agrees else 'NOT AS EXPECTED'}"
        )
    (first, low, _, _), (second, high, _, _) = results
    print(f"ten times the work: {second / first:.1f} times the time, {high / low:.1f} times the memory")


if __name__ == "__main__":
    main()
