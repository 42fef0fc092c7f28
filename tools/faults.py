"""Tests that docs/RULES.md says of each fault, cause and reason what docs/OPERATING.md says, or puts it there.

Run by hand from the top of the repository: python3 -B tools/faults.py [--fill]

The tables of docs/OPERATING.md are the one place for what a fault of a block, of a batch or of a proof means, a cause of a
drop, and a reason of an invalid transaction. A row of docs/RULES.md that begins with the number of one has its words.
With `--fill` they are put there, and the counts of rules at the top. Without it each row that differs is printed, and what
only one page has; it ends with 1 where there is any.
"""

import re
import sys

import usage

SOURCE, PAGE = "docs/OPERATING.md", "docs/RULES.md"
HEAD = re.compile(r"\| (?:(Cause|Reason) )?(\d+)(?: `(\w+)`)?: ")
COUNT = re.compile(r"\| (?:\[(.*)\]\(#.*\)|all) \| (\d+) \|")
# The sections of docs/OPERATING.md with a table of faults, by how their names begin, and those of docs/RULES.md in which a
# number is no fault of a block.
TOLD = {
    "Faults of a block": "block",
    "Faults of a batch": "batch",
    "Causes of a drop": "cause",
    "Reasons of": "reason",
    "Proofs": "proof",
}
RULED = {
    "Checks of a batch": "batch",
    "IntegerKey": "reason",
    "XO": "reason",
    "Settings": "reason",
    "Identity": "reason",
    "Proofs": "proof",
}
OTHERS = ("Statuses",)


def content(path):
    with open(path, encoding="utf-8") as file:
        return file.read()


def kind_of(section, kinds, other=None):
    return next((kind for name, kind in kinds.items() if section.startswith(name)), other)


def key_of(kind, cells):
    """The number of a fault, by the first cell of its row, and its name where it has one; None: the row is of none."""
    if kind == "reason":
        found = re.fullmatch(r"\d+", cells[0])
        return found and (found[0], cells[1] if len(cells) == 4 else "")
    if kind == "block":
        found = re.match(r"`(\d+) (\w+)", cells[0])
        return found and found.groups()
    found = re.match(r"`(?:6 Batch K|13 Static K|REJECTED) (\d+)", cells[0])
    return found and (found[1], "" if kind == "proof" else cells[1])


def meanings():
    """What each fault means: a text by its kind, number and name. Rows of one number are joined."""
    told, kind = {}, None
    for line in content(SOURCE).split("\n"):
        if line.startswith("## "):
            kind = kind_of(line[len("## ") :], TOLD)
        cells = [cell.strip() for cell in re.split(r"(?<!\\)\|", line)[1:-1]]
        key = key_of(kind, cells) if kind and cells else None
        if key:
            told.setdefault((kind, *key), []).append(cells[-2])
    return {key: "; or ".join(texts) for key, texts in told.items()}


def filled(lines, told):
    """The lines with the words of each fault, and the faults that they name."""
    made, named, kind = [], [], None
    for line in lines:
        if line.startswith("## "):
            section = line[len("## ") :]
            kind = None if section.startswith(OTHERS) else kind_of(section, RULED, "block")
        head = HEAD.match(line) if kind else None
        if head:
            key = ((head[1] or kind).lower(), head[2], head[3] or "")
            named.append(key)
            line = f"{head[0]}{told.get(key, 'nothing')}.{line[line.index(' | ', head.end() - 1) :]}"
        made.append(line)
    return made, named


def counted(lines):
    """The lines with the number of rules of each section, and of all, in the table at the top."""
    counts, section, made = {}, "", []
    for line in lines:
        section = line[len("## ") :] if line.startswith("## ") else section
        if line.startswith("| ") and line.count(" | ") == 3 and not line.startswith("| Rule |"):
            counts[section] = counts.get(section, 0) + 1
    for line in lines:
        head = COUNT.fullmatch(line)
        count = head and (counts.get(head[1], 0) if head[1] else sum(counts.values()))
        made.append(f"{line[: head.start(2)]}{count} |" if head else line)
    return made


def differences(old, new, told, named):
    """What is to be told: rows that differ, and faults that one page has alone or that stand twice."""
    for at, (row, due) in enumerate(zip(old, new), 1):
        if row != due:
            yield f"{PAGE}:{at}: not as in {SOURCE}, or another count"
    for page, keys in ((PAGE, set(told) - set(named)), (SOURCE, set(named) - set(told))):
        yield from (f"{page}: no {' '.join(key)}" for key in sorted(keys))
    yield from (f"{PAGE}: {' '.join(key)} stands twice" for key in sorted(set(named)) if named.count(key) > 1)


def main():
    given = usage.words(__doc__, 0, 1, ["--fill"])
    told, old = meanings(), content(PAGE).split("\n")
    made, named = filled(old, told)
    new = counted(made)
    if given == ["--fill"]:
        with open(PAGE, "w", encoding="utf-8") as file:
            file.write("\n".join(new))
        old = new
    found = list(differences(old, new, told, named))
    for each in found:
        print(each)
    print(f"{len(told)} faults, causes and reasons, {len(found)} differences")
    sys.exit(1 if found else 0)


if __name__ == "__main__":
    main()
