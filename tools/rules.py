"""Checks docs/RULES.md: that each file, definition, function, case, script and test that it names exists.

Run by hand from the top of the repository: python3 -B tools/rules.py
It prints what is missing, and then the counts; it ends with 1 where something is missing. What the page says of faults,
causes and reasons is tested by tools/faults.py.
"""

import os
import re
import sys

import usage

PAGE = "docs/RULES.md"
CRATES = "crates"
NAME = r"`([^`]+)`"


def content(path):
    with open(path, encoding="utf-8") as file:
        return file.read()


def rows():
    """The lines of rules with their numbers and their four cells."""
    for at, line in enumerate(content(PAGE).split("\n"), 1):
        cells = [cell.strip() for cell in line.strip("| ").split(" | ")]
        if line.startswith("| ") and len(cells) == 4 and cells[0] != "Rule":
            yield at, cells


def missing_names(cell, ending, pattern):
    """What a cell of definitions or functions names that is not there, and how many names it has."""
    if cell == "none":
        return [], 0
    lost, count = [], 0
    for group in cell.split("; "):
        path, *names = re.findall(NAME, group)
        full = os.path.join(CRATES, path + ending)
        text = content(full) if os.path.isfile(full) else ""
        lost += [f"{path}: {name}" for name in names if not re.search(pattern % re.escape(name), text, re.M)]
        count += len(names)
    return lost, count


def has_test(crate, function):
    folder = os.path.join(CRATES, crate, "src")
    texts = (content(os.path.join(folder, name)) for name in os.listdir(folder))
    return any(re.search(r"#\[test\]\s*fn %s\(" % function, text) for text in texts)


def has_script(crate, name):
    data = os.path.join(CRATES, crate, "data")
    return any(os.path.isfile(os.path.join(data, kind, name + ".script")) for kind in os.listdir(data))


def is_shown(name, cases):
    """Whether there is a script, a test or a case of this name."""
    if ": " not in name:
        return name in cases
    crate, called = name.split(": ")
    return has_script(crate, called) if crate.endswith("_steps") else has_test(crate, called)


def missing_cases(cell, cases):
    """What a cell of cases, scripts and tests names that is not there, and how many names it has."""
    names = re.findall(NAME, cell)
    return [name for name in names if not is_shown(name, cases)], len(names)


def main():
    usage.words(__doc__)
    data = os.path.join(CRATES, "saw_cases", "data")
    cases = {"words.txt", *os.listdir(os.path.join(data, "cases"))}
    rules = names = bad = 0
    for at, (_, definition, code, shown) in rows():
        rules += 1
        found = [
            missing_names(definition, ".antt", r"^ *(?:(?:abbrev|unfoldable) )?pub (?:record |data )?%s "),
            missing_names(code, "", r"\bfn %s[(<]"),
            missing_cases(shown, cases),
        ]
        for lost, count in found:
            names, bad = names + count, bad + len(lost)
            for name in lost:
                print(f"{PAGE}:{at}: no {name}")
    print(f"{rules} rules, {names} names, {bad} of them missing")
    sys.exit(1 if bad else 0)


main()
