"""Measures `apply` of one program beside that of another over generated streams, in runs that take turns.

Run by hand, never by the gate, after `rt run` has built the program: bench/compare.sh PROGRAM OTHER [BLOCKS BATCHES RUNS]
For each of 0, 10 and 100 conflicts of 100 and 1, 2 and 4 workers it prints the best of so many runs of both: wall time,
transactions a second, processor time of that run and peak of memory, and how often the other's time the first one took.
The streams are made by PROGRAM's own `generate`; both must write the same report.
"""

import os
import subprocess
import sys
import tempfile
import time

sys.path.insert(0, os.path.join(os.path.dirname(__file__), "..", "tools"))

import usage

START, CONFLICTS, WORKERS = 7, (0, 10, 100), (1, 2, 4)


def made(program, blocks, batches, conflicts):
    """A stream in a file."""
    file = tempfile.TemporaryFile()
    words = ["generate", "--start", START, "--blocks", blocks, "--batches", batches, "--conflicts", conflicts]
    subprocess.run([program, *map(str, words)], stdout=file, check=True)
    return file


def run(program, file, workers):
    """Wall time, processor time and peak of memory of one run, and its report."""
    file.seek(0)
    begin = time.monotonic()
    child = subprocess.Popen([program, "apply", "--workers", str(workers)], stdin=file, stdout=subprocess.PIPE)
    report = child.stdout.read()
    _, status, usage = os.wait4(child.pid, 0)
    wall = time.monotonic() - begin
    if status != 0:
        sys.exit(f"{program}: status {os.waitstatus_to_exitcode(status)} with {workers} workers")
    return wall, usage.ru_utime + usage.ru_stime, usage.ru_maxrss / 1024, report


def compared(programs, file, workers, runs):
    """The best run of each program."""
    told = [[run(program, file, workers) for program in programs] for _ in range(runs)]
    if len({report for turn in told for *_, report in turn}) != 1:
        sys.exit("the reports differ")
    return [min(turn[index] for turn in told) for index in range(len(programs))]


def main():
    usage.words(__doc__, 2, 5)
    programs = sys.argv[1:3]
    blocks, batches, runs = (int(word) for word in sys.argv[3:6] or ("4", "2500", "5"))
    count = blocks * batches * 2
    print(f"{blocks} blocks, {count} transactions, best of {runs}, {os.cpu_count()} cores, load {os.getloadavg()[0]:.1f}")
    print(f"{'conflicts':>9} {'workers':>7} {'program':>8} {'ms':>8} {'tx/s':>8} {'cpu ms':>8} {'MB':>7} {'ratio':>6}")
    for conflicts in CONFLICTS:
        with made(programs[0], blocks, batches, conflicts) as file:
            for workers in WORKERS:
                best = compared(programs, file, workers, runs)
                for name, (wall, processor, memory, _) in zip(("first", "other"), best):
                    print(
                        f"{conflicts:>9} {workers:>7} {name:>8} {wall * 1000:>8.1f} {count / wall:>8.0f}"
                        f" {processor * 1000:>8.0f} {memory:>7.1f} {wall / best[1][0]:>6.2f}"
                    )


if __name__ == "__main__":
    main()
