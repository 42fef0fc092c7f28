"""Measures what `events` costs beside `receipts` over the same chain.

Run by hand, never by the gate, after `rt run` has built the program: python3 -B bench/events.py PROGRAM [BLOCKS] [SIZE] [TURNS]

The chain has so many blocks (4,000), each of which sets SIZE new names (10), as bench/chain.py makes it. Each kind of call
is run so many TURNS (5), one kind after another in each; told is the least processor time of each, and how many times that of
`receipts` it is.
"""

import os
import subprocess
import sys
import tempfile

from chain import stream
import usage

CALLS = {
    "receipts": ["receipts"],
    "sawtooth/block-commit": ["events", "--type", "sawtooth/block-commit"],
    "sawtooth/state-delta": ["events", "--type", "sawtooth/state-delta"],
    "a type of none": ["events", "--type", "none"],
}


def seconds(program, words, file):
    """The processor time of one run over the file."""
    file.seek(0)
    child = subprocess.Popen([program, *words, "--workers", "1"], stdin=file, stdout=subprocess.DEVNULL)
    _, status, usage = os.wait4(child.pid, 0)
    if os.waitstatus_to_exitcode(status) not in (0, 8):
        sys.exit(f"{words} ended with {os.waitstatus_to_exitcode(status)}")
    return usage.ru_utime + usage.ru_stime


def main():
    usage.words(__doc__, 1, 4)
    program = sys.argv[1]
    blocks, size, turns = (int(word) for word in [*sys.argv[2:], *["4000", "10", "5"][len(sys.argv) - 2 :]])
    frames, _ = stream(0, blocks, size, 1)
    least = {}
    with tempfile.TemporaryFile() as file:
        file.write(frames)
        for _ in range(turns):
            for name, words in CALLS.items():
                least[name] = min(seconds(program, words, file), least.get(name, float("inf")))
    for name, took in least.items():
        print(f"{name}: {took:.3f} s, {took / least['receipts']:.2f} times")


if __name__ == "__main__":
    main()
