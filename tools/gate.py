"""Says what a gate takes of the processor, by crate and by kind of work, and what each module of a proof takes.

Usage: gate.py watch FILE      samples all provers until it is stopped, and writes what each took to FILE
       gate.py sum FILE        minutes of processor of what was watched, by kind and by crate
       gate.py modules FOLDER  seconds between the files that a check left in FOLDER

Start `watch` beside `rt ci` on a machine that runs nothing else. A kind is `build` (a library), `check` (a program or a
test crate), `seed` (what a crate's edits begin and end with) or `edit`. FOLDER is what `rattle check --incremental
FOLDER --jobs 1` was given: each module is a file that is written as the module ends, so the time since the file before
is what the module took.
"""

import collections
import glob
import json
import os
import re
import sys
import time

import usage

TICKS = os.sysconf("SC_CLK_TCK")


def after(words, flag):
    return next((words[at + 1] for at, it in enumerate(words[:-1]) if it == flag), "")


def kind_of(words):
    kept = after(words, "--incremental")
    if "rt-edits" in kept:
        return "seed" if kept.endswith("/seed") else "edit"
    return "edit" if "rt-edit" in " ".join(words) else words[1]


def provers():
    """The provers that run, as (process and its start, words, seconds of processor)."""
    for folder in glob.glob("/proc/[0-9]*"):
        try:
            with open(folder + "/cmdline") as file:
                words = file.read().split("\0")
            with open(folder + "/stat") as file:
                stat = file.read().rsplit(")", 1)[1].split()
        except OSError:
            continue
        if os.path.basename(words[0]) == "rattle" and len(words) > 2:
            yield folder + ":" + stat[19], words, sum(map(int, stat[11:15])) / TICKS


def watch(path):
    seen, written = {}, 0
    while True:
        for key, words, seconds in provers():
            seen[key] = [after(words, "--crate-name"), kind_of(words), seconds]
        if time.time() - written > 10:
            with open(path + ".new", "w") as file:
                json.dump(list(seen.values()), file)
            os.replace(path + ".new", path)
            written = time.time()
        time.sleep(0.5)


def total(path):
    with open(path) as file:
        seen = json.load(file)
    kinds, crates = collections.Counter(), collections.defaultdict(collections.Counter)
    for crate, kind, seconds in seen:
        kinds[kind] += seconds / 60
        crates[crate][kind] += seconds / 60
    print(f"{sum(kinds.values()):6.1f}  all:", ", ".join(f"{kind} {it:.1f}" for kind, it in kinds.most_common()))
    for crate, its in sorted(crates.items(), key=lambda it: -sum(it[1].values())):
        print(f"{sum(its.values()):6.1f}  {crate}:", ", ".join(f"{kind} {it:.1f}" for kind, it in its.most_common()))


def modules(folder):
    files = glob.glob(folder + "/antt-checked-*/*.oantt")
    ended = sorted((os.stat(it).st_mtime, re.sub(r"^Rattle-|\.oantt$", "", os.path.basename(it))) for it in files)
    took = [(now - before, name) for (before, _), (now, name) in zip(ended, ended[1:])]
    ends = collections.Counter()
    for seconds, name in took:
        ends[name.rsplit(".", 1)[-1] if name.rsplit(".", 1)[-1][:1].isupper() else "lemmas and statements"] += seconds
    print(f"{sum(it for it, _ in took):7.1f}  all:", ", ".join(f"{end} {it:.0f}" for end, it in ends.most_common(8)))
    for seconds, name in sorted(took, reverse=True)[:40]:
        print(f"{seconds:7.1f}  {name}")


if __name__ == "__main__":
    calls = {"watch": watch, "sum": total, "modules": modules}
    call, place = usage.words(__doc__, 2)
    if call not in calls:
        sys.exit(__doc__)
    calls[call](place)
