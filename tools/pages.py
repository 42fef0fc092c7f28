"""Checks the pages: that each link, heading and file that they name exists.

Run by hand from the top of the repository: python3 -B tools/pages.py
It prints what is missing, with its page and line, and then the counts; it ends with 1 where something is missing.

A name in backticks is taken for a file if it has a slash and its first part is a folder of the repository or a crate. It
may stand without its ending and without `crates`, `specs` or `edits` (`saw_top/src/run.rt`, `saw_checks/Faults`). Names with
a word in capitals, which stands for any, are passed over.
"""

import glob
import os
import re
import sys

import usage

usage.words(__doc__)
PAGES = ["README.md", *sorted(glob.glob("*/*.md")), *sorted(glob.glob("crates/*/README.md"))]
LINK = re.compile(r"!?\[[^\]]*\]\(([^)\s]+)\)")
NAME = re.compile(r"`([A-Za-z0-9_.*/-]+/[A-Za-z0-9_.*/-]*)`")
ANY = re.compile(r"\b[A-Z]{4,}\b")
PYTHON = re.compile(r"python3 -B ([A-Za-z0-9_./-]+\.py)")
FOLDERS = {name for name in os.listdir(".") if os.path.isdir(name)} | set(os.listdir("crates"))


def content(path):
    with open(path, encoding="utf-8") as file:
        return file.read()


def anchors(path):
    """The names under which a page's headings are linked."""
    heads = re.findall(r"^#+ (.*)$", content(path), re.MULTILINE)
    return {re.sub(r"[^\w -]", "", head).lower().replace(" ", "-") for head in heads}


def is_link(page, target):
    """Whether a link of the page leads somewhere. Those to other machines are not followed."""
    if re.match(r"[a-z]+:", target):
        return True
    path, _, anchor = target.partition("#")
    path = os.path.normpath(os.path.join(os.path.dirname(page), path)) if path else page
    return os.path.exists(path) and (not anchor or anchor in anchors(path))


def is_file(name):
    """Whether a file or folder of the name is there, or several, where it has a star. What a build makes is taken as there."""
    crate, _, rest = name.partition("/")
    if "/out/" in name:
        return True
    places = [name, f"crates/{name}", f"crates/{crate}/specs/{rest}", f"edits/{name}", f"crates/{crate}/must-fail/{rest}"]
    return any(glob.glob(place + ending) for place in places for ending in ("", ".antt", ".rt", ".edit"))


def missing(page):
    """What the page names that is not there, with the line; and how much it names."""
    lines, found, count = content(page).split("\n"), [], 0
    for at, line in enumerate(lines, 1):
        links = [(it, is_link(page, it)) for it in LINK.findall(line)]
        names = [it for it in NAME.findall(line) if it.split("/")[0] in FOLDERS and not ANY.search(it)]
        files = [(it, is_file(it)) for it in [*names, *(it for it in PYTHON.findall(line) if it.split("/")[0] in FOLDERS)]]
        count += len(links) + len(files)
        found += [(at, it) for it, there in [*links, *files] if not there]
    return found, count


def main():
    lacking = total = 0
    for page in PAGES:
        found, count = missing(page)
        lacking, total = lacking + len(found), total + count
        for at, name in found:
            print(f"{page}:{at}: {name}")
    print(f"{len(PAGES)} pages, {total} names, {lacking} of them missing")
    sys.exit(1 if lacking else 0)


if __name__ == "__main__":
    main()
