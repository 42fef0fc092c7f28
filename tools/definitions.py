"""Prints what is defined where: each file of crates/CRATE/specs with its first line, crate by crate, lowest first.

Usage, from the top of the repository: python3 -B tools/definitions.py [CRATE..]

Without a name all crates are listed. Files that only list modules, and those that the toolchain makes of the code
(specs/declared), are left out.
"""

import os
import re
import sys

import usage


def content(*parts):
    with open(os.path.join(*parts), encoding="utf-8") as file:
        return file.read()


def crates():
    """The crates of crates.txt, in its order."""
    return re.findall(r"^(\w+):", content("crates.txt"), re.MULTILINE)


def spec_files(crate):
    """The files of definitions of a crate, without their ending, in order of their names."""
    top = os.path.join("crates", crate, "specs")
    for folder, folders, files in os.walk(top):
        folders[:] = sorted(name for name in folders if name != "declared")
        for name in sorted(files):
            if name.endswith(".antt"):
                yield os.path.relpath(os.path.join(folder, name[: -len(".antt")]), top)


def tell(crate):
    for name in spec_files(crate):
        first = content("crates", crate, "specs", name + ".antt").split("\n")[0]
        if first.startswith("-- "):
            print(f"{crate}/specs/{name}: {first[len('-- '):]}")


def main():
    named = usage.words(__doc__, 0, float("inf")) or crates()
    unknown = [name for name in named if not os.path.isdir(os.path.join("crates", name))]
    if unknown:
        sys.exit(f"no crate: {' '.join(unknown)}")
    for crate in named:
        tell(crate)


if __name__ == "__main__":
    main()
