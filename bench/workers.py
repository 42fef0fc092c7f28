"""Measures `apply` by one and by more workers over streams with few and with many conflicts, in turns.

Run by hand, never by the gate, after `rt run` has built the program:
python3 bench/workers.py PROGRAM [BLOCKS BATCHES RUNS]

For each of 0, 10 and 100 conflicts in 100 batches and each number of workers: the least wall time of so many runs, the
processor time of that run, transactions a second, and how often the speed of one worker that is. All answers must agree.
"""

import os
import sys

from compare import made, run
import usage

WORKERS = (1, 2, 4)


def main():
    usage.words(__doc__, 1, 4)
    program = sys.argv[1]
    blocks, batches, runs = (int(word) for word in sys.argv[2:5] or ("4", "2500", "5"))
    print(f"{blocks} blocks of {batches} batches, {os.cpu_count()} cores, load {os.getloadavg()[0]:.1f}")
    for conflicts in (0, 10, 100):
        with made(program, blocks, batches, conflicts) as file:
            told = {workers: [] for workers in WORKERS}
            for _ in range(runs):
                for workers in WORKERS:
                    told[workers].append(run(program, file, workers))
        if len({answer for some in told.values() for *_, answer in some}) != 1:
            sys.exit("the answers differ")
        for workers, some in told.items():
            wall, processor, *_ = min(some)
            times = min(told[1])[0] / wall
            speed = blocks * batches * 2 / wall
            print(
                f"{conflicts} conflicts, {workers} workers: {wall:.3f} s, {processor:.3f} s of processor, "
                f"{speed:.0f} a second, {times:.2f} times"
            )


if __name__ == "__main__":
    main()
