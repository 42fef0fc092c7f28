"""Tries the edits that lie beside the gate, in edits/CRATE: the prover must refuse each.

Usage, from the top of the repository: python3 -B tools/edits.py [--keep] [CRATE..]
                                       python3 -B tools/edits.py --dry [CRATE..]

Without names it takes each crate that has a folder in edits/. The crates and those below them, as they stand here, are
copied into a scratch folder (under TMPDIR, else /tmp) with their folders out/, so that no library is built again; the
edits of edits/ stand there in the place of those of the gate, and `rt must-fail` tries them. --keep keeps that folder. Let no
`rt check` run here while the folders are copied.
An edit that does not apply or that no goal refuses, only a name that it took away or a limit of the prover, is bad.
--dry proves nothing: it tests that each edit applies, those of the gate too.
The last line has the counts; the status is 0 only if all are refused (under --dry: only if all apply).
"""

import glob
import os
import re
import shutil
import signal
import subprocess
import sys
import tempfile

SIDE = "edits"
TOP_FILES = ["crates.txt", "HANDLES"]
REFUSED, KEPT, BAD, UNTRIED = "refused", "not refused", "bad", "not tried"
BESIDE = re.compile(r"crates/\w+/(must-fail|data)/")
TOLD = re.compile(r"(?:rt: )?must-fail (\w+)/(\S+\.edit): (.*)")
SAYS = [
    ("refused, as it must be (only", BAD),
    ("refused, as it must be", REFUSED),
    ("NOT REFUSED", KEPT),
    ("BAD EDIT", BAD),
]


def content(path):
    with open(path, encoding="utf-8") as file:
        return file.read()


def edits_in(folder):
    return sorted(glob.glob(f"{folder}/*.edit"))


def below(names):
    """The crates of these names and all of the repository that they stand on."""
    lines = [line.split(":") for line in content("crates.txt").split("\n") if ":" in line and line[0] != "#"]
    uses = {words.split()[0]: used.split() for words, used in lines}
    found, left = set(), list(names)
    while left:
        name = left.pop()
        if name in uses and name not in found:
            found.add(name)
            left += uses[name]
    return sorted(found)


# --- whether an edit applies ---


def steps_of(text):
    """The steps of an edit: a file, an old text in it, and the new one."""
    name, old = "", ""
    for line in text.split("\n"):
        word, _, said = line.partition(":")
        said = said.removeprefix(" ")
        if word == "file":
            name = said.strip()
        elif word == "old":
            old = said
        elif word == "new":
            yield name, old, said
            old = ""


def why_not(path, crate):
    """Why the edit does not apply; nothing if it does."""
    texts, first = {}, {}
    for name, old, new in steps_of(content(path)):
        full = f"crates/{crate}/{name}"
        if not name or not old or not os.path.isfile(full):
            return f"a new text without an old one or a file: {name}"
        text = texts.get(name) or content(full)
        first.setdefault(name, text)
        if text.count(old) != 1:
            return f"an old text stands {text.count(old)} times in {name}"
        texts[name] = text.replace(old, new)
    return "" if texts != first else "it changes nothing"


def dry(crates):
    """Tests that each edit applies, of both places; whether all do."""
    fine, bad = 0, 0
    for crate in crates:
        for path in edits_in(f"{SIDE}/{crate}") + edits_in(f"crates/{crate}/must-fail"):
            why = why_not(path, crate)
            print(f"{path}: {why}\n" if why else "", end="")
            fine, bad = fine + (not why), bad + bool(why)
    print(f"{fine} apply, {bad} do not")
    return not bad


# --- whether the prover refuses it ---


def copy_file(path, room):
    os.makedirs(os.path.dirname(f"{room}/{path}") or room, exist_ok=True)
    shutil.copy2(path, f"{room}/{path}")


def copy_crates(names, room):
    """Copies all crates as they stand, without the gate's edits, and what checks kept of these."""
    listing = ["git", "ls-files", "-z", "--cached", "--others", "--exclude-standard", "--", "crates"]
    files = subprocess.run(listing, check=True, capture_output=True, text=True).stdout.split("\0")
    for path in TOP_FILES + [path for path in files if os.path.isfile(path) and not BESIDE.search(path)]:
        copy_file(path, room)
    for folder in [f"crates/{name}/out" for name in names if os.path.isdir(f"crates/{name}/out")]:
        subprocess.run(["cp", "-a", "--reflink=auto", folder, f"{room}/{folder}"], check=True)


def put_edits(crates, room):
    """Puts the edits of edits/ where rt looks for them; gives their crates and names."""
    put = []
    for crate in crates:
        os.makedirs(f"{room}/crates/{crate}/must-fail", exist_ok=True)
        for path in edits_in(f"{SIDE}/{crate}"):
            shutil.copy2(path, f"{room}/crates/{crate}/must-fail/")
            put.append((crate, os.path.basename(path)))
    return put


def outcome_of(said):
    return next((outcome for start, outcome in SAYS if said.startswith(start)), UNTRIED)


def tried(crates, room):
    """Runs `rt must-fail`, shows its lines, and gives what came of each edit that it speaks of."""
    came = {}
    words = ["rt", "must-fail", *crates]
    with subprocess.Popen(words, cwd=room, stdout=subprocess.PIPE, stderr=subprocess.STDOUT, text=True) as run:
        try:
            for line in run.stdout:
                print(line, end="", flush=True)
                told = TOLD.match(line)
                if told:
                    came[told[1], told[2]] = outcome_of(told[3])
        except BaseException:
            run.terminate()
            raise
    return came


def prove(crates, room):
    """Tries the edits in the scratch folder; whether all are refused."""
    copy_crates(below(crates), room)
    put = put_edits(crates, room)
    came = tried(crates, room)
    outcomes = [came.get(edit, UNTRIED) for edit in put]
    for edit, outcome in zip(put, outcomes):
        print(f"{outcome}: {SIDE}/{'/'.join(edit)}\n" if outcome != REFUSED else "", end="")
    print(", ".join(f"{outcomes.count(kind)} {kind}" for kind in (REFUSED, KEPT, BAD, UNTRIED)))
    return outcomes.count(REFUSED) == len(put)


def main(words):
    if words == ["--help"]:
        print(__doc__, end="")
        return 0
    flags = [word for word in words if word.startswith("-")]
    sides = sorted(os.listdir(SIDE)) if os.path.isdir(SIDE) else []
    named = [word for word in words if word not in flags]
    unknown = [word for word in named if word not in (below(named) if "--dry" in flags else sides)]
    if unknown or set(flags) - {"--keep", "--dry"} or not os.path.isfile("crates.txt"):
        print("\n".join([f"no edits of {name}" for name in unknown] + [__doc__]), end="", file=sys.stderr)
        return 2
    if "--dry" in flags:
        gate = [path.split("/")[1] for path in glob.glob("crates/*/must-fail")]
        return 0 if dry(named or sorted({*sides, *gate})) else 1
    # So that the folder is removed when the tool is told to stop.
    signal.signal(signal.SIGTERM, lambda number, _: sys.exit(128 + number))
    room = tempfile.mkdtemp(prefix="edits-")
    try:
        return 0 if prove(named or sides, room) else 1
    finally:
        if "--keep" in flags:
            print(f"kept: {room}", file=sys.stderr)
        else:
            shutil.rmtree(room, ignore_errors=True)


if __name__ == "__main__":
    sys.exit(main(sys.argv[1:]))
