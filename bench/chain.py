"""Measures programs over first blocks of names and a chain of small blocks behind them, side by side.

Run by hand, never by the gate, after `rt run` has built the program:
python3 bench/chain.py NAMES BLOCKS SIZE TURNS PROGRAM..

Each of so many BLOCKS sets SIZE new names. With TURNS 2 two branches take turns, each with half of the blocks.
"""

import os
import subprocess
import sys
import tempfile
import time

sys.path.insert(0, os.path.join(os.path.dirname(__file__), "..", "tools"))

import counters
import usage
from generator import EMPTY, grown

# A block has at most so many transactions.
MOST = 20000


def names_first(names):
    """The blocks that set so many names: the frames, how many there are, the last one's id and what it leaves."""
    tree, name, out, number = EMPTY, "0" * 16, b"", 0
    for at in range(0, names, MOST):
        values = {f"n{index}": index for index in range(at, min(at + MOST, names))}
        tree = grown(tree, values)
        sets = [("set", each, value) for each, value in values.items()]
        batches = [sets[at : at + 10] for at in range(0, len(sets), 10)]
        name, frame = counters.block(batches, tree.hash, number, name)
        out += frame
        number += 1
    return out, number, name, tree


def stream(names, blocks, size, turns):
    """The frames, and how many blocks there are."""
    out, first, name, tree = names_first(names)
    heads = [(tree, name)] * turns
    for index in range(blocks):
        turn = index % turns
        tree, previous = heads[turn]
        more = {f"m{index}x{at}": index for at in range(size)}
        tree = grown(tree, more)
        sets = [("set", name, value) for name, value in more.items()]
        name, frame = counters.block([sets], tree.hash, index // turns + first, previous)
        heads[turn] = (tree, name)
        out += frame
    return out, first + blocks


def measure(program, frames, first):
    """The seconds of processor and the peak of memory, in KiB, of one run; the lines, and the wall time of a later block."""
    times = []
    with tempfile.TemporaryFile() as file:
        file.write(frames)
        file.seek(0)
        child = subprocess.Popen([program, "apply"], stdin=file, stdout=subprocess.PIPE)
        for _ in child.stdout:
            times.append(time.monotonic())
        _, status, usage = os.wait4(child.pid, 0)
    fine = os.waitstatus_to_exitcode(status) == 0
    # Each block has its line before the next frame is read; the last line is the head's.
    later = (times[-2] - times[first - 1]) / max(len(times) - 1 - first, 1)
    return usage.ru_utime + usage.ru_stime, usage.ru_maxrss, len(times) if fine else 0, later


def main():
    usage.words(__doc__, 5, float("inf"))
    names, blocks, size, turns = (int(word) for word in sys.argv[1:5])
    frames, count = stream(names, blocks, size, turns)
    for program in sys.argv[5:]:
        seconds, memory, lines, later = measure(program, frames, count - blocks)
        told = "" if lines == count + 1 else ", NOT AS EXPECTED"
        print(f"{program}: {seconds:.3f} s, {memory} KiB, {1000 * later:.2f} ms a later block{told}")


if __name__ == "__main__":
    main()
