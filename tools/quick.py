"""Runs the cases of saw_cases and the scripts of the three other programs, unproved, and says how many pass.

Usage, from the top of the repository: python3 -B tools/quick.py [--jobs N] [--seconds N] [--built PROGRAM]

Each program is run by `rt try` over its folder data/: nothing is proved by this, and `rt ci` is the judge. The cases are
shared among several runs. N programs run side by side (without --jobs as many as there are processors, and at least
half a gigabyte for each is taken), each for at most so many seconds (without --seconds 900).
Left out are cases of more than 1,000 transactions, those whose files have more than a megabyte with the zeros that the
program puts into them, and those with a file of a `=` in its name, which `rt try` cannot be given. The last line has the
counts; the status is 1 where something differs or a run did not end.
With --built the cases are run over a built program by conformance/run.py, large ones too, and the scripts as ever.
"""

import argparse
import os
import re
import struct
import subprocess
import sys
import time
from concurrent.futures import ThreadPoolExecutor

from applied import values

CASES = "saw_cases"
SCRIPTS = ["saw_family_steps", "saw_plan_steps", "saw_state_steps"]
# Runs that share the cases, and the limits of a case that is run.
PARTS = 2
MOST_TRANSACTIONS, MOST_BYTES = 1000, 1 << 20


def content(path):
    with open(path, "rb") as file:
        return file.read()


def files_below(folder):
    return sorted(os.path.join(at, name) for at, _, names in os.walk(folder) for name in names)


# --- how large a case is ---


def in_batches(batches):
    return sum(len(values(batch, 3)) for batch in batches)


def frames_in(stream):
    while len(stream) > 4:
        (length,) = struct.unpack(">I", stream[:4])
        yield stream[4 : 4 + length]
        stream = stream[4 + length :]


def counted(parts, batches_of):
    """Transactions in what has the form of blocks or of lists; none in anything else."""
    try:
        return sum(in_batches(batches_of(part)) for part in parts)
    except (IndexError, TypeError):
        return 0


def numbers(path):
    return [int(word) for word in content(path).split()] if os.path.isfile(path) else []


def asked(words):
    """Transactions that `generate` is asked for: two a batch."""
    given = dict(zip(words, words[1:])) | dict(word.split("=", 1) for word in words if "=" in word)
    sizes = [given.get(name, "") for name in ("--blocks", "--batches")]
    return 2 * int(sizes[0]) * int(sizes[1]) if all(size.isdigit() for size in sizes) else 0


def is_large(case):
    files = [content(path) for path in files_below(f"{case}/files")]
    again = max([1, *numbers(f"{case}/repeats")[2::3]])
    size = sum(map(len, files)) * again + sum(numbers(f"{case}/zeros")[1::2])
    size += os.path.getsize(f"{case}/stdin") + sum(numbers(f"{case}/stream_zeros")[1::2])
    words = content(f"{case}/words").decode().split("\n")
    count = counted(frames_in(content(f"{case}/stdin")), lambda block: values(block, 3))
    count += again * counted(files, lambda batches: values(batches, 1))
    return count + asked(words) > MOST_TRANSACTIONS or size > MOST_BYTES


def is_nameless(case):
    """Whether a file of the case has a name that `rt try` cannot be given."""
    return any("=" in path for path in files_below(case))


# --- runs ---


def run(crate, files, seconds):
    """Runs a program over these files; gives its output, how it ended, and its status."""
    words = ["rt", "try", "--seconds", str(seconds)]
    for name, path in files:
        words += ["--data", f"{name}={path}"]
    begun = time.time()
    ran = subprocess.run(words, cwd=f"crates/{crate}", stdin=subprocess.DEVNULL, capture_output=True, text=True)
    print(f"{crate}: ended after {time.time() - begun:.0f} s", file=sys.stderr, flush=True)
    return ran.stdout, ran.stderr, ran.returncode


def told(crate, ran):
    """How many passed; none where the run did not end. Shows what differs."""
    output, notes, status = ran
    count = re.search(r"^(\d+) passed, (\d+) failed$", output, re.M)
    for line in output.split("\n"):
        print(f"{crate}: {line}\n" if line.endswith(" differs") else "", end="")
    if status or not count:
        print(f"{crate}: status {status}\n" + "\n".join(notes.strip().split("\n")[-8:]))
    return (int(count[1]) if count else 0), bool(count) and count[2] == "0" and status == 0


def wanted(crate):
    return int(content(f"crates/{crate}/stdout").split()[0])


def below_data(crate, folders):
    """The files below these folders of a crate's data, by the names that the program knows."""
    data = f"crates/{crate}/data"
    files = [path for folder in folders for path in files_below(f"{data}/{folder}")]
    return [(os.path.relpath(path, data), os.path.abspath(path)) for path in files]


def runs_of(cases):
    """Each run, as its crate and its files: the cases in parts, and the scripts."""
    runs = [(CASES, below_data(CASES, [f"cases/{case}" for case in cases[at::PARTS]])) for at in range(PARTS)]
    # The lines of words go with the first part, and none with the others.
    for (_, files), words in zip(runs, [f"crates/{CASES}/data/words.txt"] + [os.devnull] * PARTS):
        files.append(("words.txt", os.path.abspath(words)))
    return runs + [(crate, below_data(crate, [""])) for crate in SCRIPTS]


def arguments():
    parser = argparse.ArgumentParser(usage=__doc__)
    parser.add_argument("--jobs", type=int, default=os.cpu_count())
    parser.add_argument("--seconds", type=int, default=900)
    parser.add_argument("--built", metavar="PROGRAM")
    return parser.parse_args()


def chosen():
    """The cases that are run, those that are too large, and those whose name is invalid."""
    folder = f"crates/{CASES}/data/cases"
    cases = sorted(os.listdir(folder))
    large = [case for case in cases if is_large(f"{folder}/{case}")]
    nameless = [case for case in cases if case not in large and is_nameless(f"{folder}/{case}")]
    return [case for case in cases if case not in large + nameless], large, nameless


def over_built(given):
    """The cases over a built program, and the scripts; gives the status."""
    words = [sys.executable, "-B", "conformance/run.py", given.built, "--jobs", str(given.jobs)]
    status = subprocess.run(words).returncode
    with ThreadPoolExecutor(given.jobs) as pool:
        came = list(pool.map(lambda it: run(it, below_data(it, [""]), given.seconds), SCRIPTS))
    counts = [told(crate, ran) for crate, ran in zip(SCRIPTS, came)]
    scripts, of = sum(count for count, _ in counts), sum(map(wanted, SCRIPTS))
    print(f"{scripts} of {of} scripts pass; nothing is proved by this")
    return 1 if status or scripts != of or not all(fine for _, fine in counts) else 0


def main():
    given = arguments()
    if given.built:
        return over_built(given)
    cases, large, nameless = chosen()
    runs = runs_of(cases)
    with ThreadPoolExecutor(given.jobs) as pool:
        came = list(pool.map(lambda it: run(*it, given.seconds), runs))
    counts = [told(crate, ran) for (crate, _), ran in zip(runs, came)]
    passed = sum(count for count, _ in counts[:PARTS])
    scripts = sum(count for count, _ in counts[PARTS:])
    whole = passed + len(large + nameless) == wanted(CASES) and scripts == sum(map(wanted, SCRIPTS))
    if not whole:
        print(f"{wanted(CASES)} cases and {sum(map(wanted, SCRIPTS))} scripts are told in the files stdout")
    odd = f" and {len(nameless)} with a `=` in a name" if nameless else ""
    print(f"{passed} cases and {scripts} scripts pass; {len(large)} larger ones{odd} are left out; nothing is proved by this")
    return 0 if whole and all(fine for _, fine in counts) else 1


if __name__ == "__main__":
    sys.exit(main())
