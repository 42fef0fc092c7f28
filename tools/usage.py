"""What the scripts here take on their command lines, as a module of theirs."""

import os
import shutil
import sys


def words(text, least=0, most=None, flags=()):
    """The words of the command line: at least and at most so many, and none that begins with `-` but for these flags.

    `--help` prints the text of the script and ends it with 0; other words than those of its usage end it with 2.
    """
    given = sys.argv[1:]
    if given == ["--help"]:
        print(text.strip())
        sys.exit(0)
    odd = any(word.startswith("-") and word not in flags for word in given)
    if odd or not least <= len(given) <= (least if most is None else most):
        print(text.strip(), file=sys.stderr)
        sys.exit(2)
    return given


def program(text):
    """The program that the first word names, which is taken off the command line. `--help` does as above.

    Where it is no program, that is told, and the script ends with 2.
    """
    if sys.argv[1:] == ["--help"] or len(sys.argv) < 2:
        words(text, 1)
    name = os.path.abspath(sys.argv.pop(1))
    if shutil.which(name) is None:
        print(f"{name} is no program", file=sys.stderr)
        sys.exit(2)
    return name
