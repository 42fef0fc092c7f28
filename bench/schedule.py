"""Measures the schedule of a plan: how long the lines of the plan take, the schedule, and a single worker.

Run by hand, never by the gate, after `rt run` in crates/saw_plan_steps has built the program:
python3 bench/schedule.py [PROGRAM]

Each plan has so many counter transactions, ten in a batch, over so many names. In the second table each reads all of its
family's addresses and writes its own. A run that takes too long or too much memory is given up.
"""

import os
import resource
import subprocess
import sys
import tempfile

ROOT = os.path.join(os.path.dirname(os.path.abspath(__file__)), "..")
sys.path.insert(0, os.path.join(ROOT, "tools"))

import usage  # noqa: E402
from counters import address, operation  # noqa: E402

FAMILY = "1cf126"

KINDS = ["plans", "schedules", "trees"]
SECONDS, BYTES = 300, 6 * 2**30


def plan(count, names, read=None):
    """The lines of the plan. The first transaction of each name sets it; each reads its address, or this prefix."""
    lines = []
    for number in range(count):
        name = f"n{number % names}"
        at, what = address(name), operation("set" if number < names else "inc", name, 1)
        lines.append(f"family intkey t{number} +{read or at} +{at} - {what.hex()}")
        if number % 10 == 9:
            lines.append(f"batch b{number}")
    return lines


def limited():
    resource.setrlimit(resource.RLIMIT_CPU, (SECONDS, SECONDS))
    resource.setrlimit(resource.RLIMIT_AS, (BYTES, BYTES))


def measure(program, lines):
    """The seconds of processor of one run and its bytes of memory, or none where it was given up."""
    with tempfile.TemporaryDirectory() as folder:
        for kind in KINDS:
            os.mkdir(f"{folder}/{kind}")
        with open(f"{folder}/schedules/plan.script", "w") as file:
            file.writelines(line + "\n" for line in lines)
        open(f"{folder}/schedules/plan.want", "w").close()
        child = subprocess.Popen([program], cwd=folder, stdout=subprocess.PIPE, preexec_fn=limited)
        said = child.stdout.read()
        _, status, usage = os.wait4(child.pid, 0)
    if status != 0 or said != b"1 passed, 0 failed\n":
        return None
    return usage.ru_utime + usage.ru_stime, usage.ru_maxrss * 1024


def shown(run):
    return "    given up" if run is None else f"{run[0]:10.3f} s"


def memory(later, earlier):
    """Megabytes that the later run took more."""
    return "    given up" if later is None or earlier is None else f"{(later[1] - earlier[1]) / 1e6:9.1f} MB"


def difference(later, earlier, count):
    """Microseconds for each transaction."""
    return "    given up" if later is None or earlier is None else f"{(later[0] - earlier[0]) / count * 1e6:9.1f} us"


def table(program, counts, names_of, read):
    print("transactions  names        plan    schedule       drain    each transaction      memory of the drain")
    for count in counts:
        for names in names_of(count):
            lines = plan(count, names, read)
            alone = measure(program, lines)
            made = measure(program, lines + ["schedule"])
            drained = measure(program, lines + ["schedule", "drain"])
            print(
                f"{count:12} {names:6}{shown(alone)}{shown(made)}{shown(drained)}"
                f"{difference(made, alone, count)}{difference(drained, made, count)}{memory(drained, made)}",
                flush=True,
            )


def main():
    usage.words(__doc__, 0, 1)
    program = os.path.abspath(sys.argv[1] if len(sys.argv) > 1 else f"{ROOT}/crates/saw_plan_steps/out/saw_plan_steps")
    print("schedule - plan and drain - schedule are given for each transaction")
    table(program, (2000, 20000), lambda count: (count, 100, 1), None)
    table(program, (1000, 2000, 4000, 20000), lambda count: (count,), FAMILY)


if __name__ == "__main__":
    main()
