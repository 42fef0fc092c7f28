"""Makes the case of saw_cases whose output is large: a stream of 20,000 transactions, and what `apply` says of it.

Of the stream the SHA-512 is stored.
Usage: python3 tools/large.py crates/saw_cases/data/cases
"""

import hashlib
import os

import generator
import usage

START, BLOCKS, BATCHES = 7, 4, 2500


def main():
    (cases,) = usage.words(__doc__, 1)
    digest, lines, last = hashlib.sha512(), [], ""
    for number, (name, root, frame) in enumerate(generator.blocks_of(START, BLOCKS, BATCHES, 10)):
        digest.update(frame)
        last = f"{number} {name} {root}"
        lines.append(f"block {number} committed {last} {BATCHES} {2 * BATCHES}\n")
    words = ["generate", "--start", str(START), "--blocks", str(BLOCKS), "--batches", str(BATCHES)]
    stored = {
        "words": "".join(word + "\n" for word in words),
        "stdin": "",
        "digest": digest.hexdigest() + "\n",
        "stderr": "",
        "status": "0\n",
        "applied": "".join(lines) + f"head {last}\n",
    }
    folder = f"{cases}/large_run"
    os.makedirs(folder, exist_ok=True)
    for name, text in stored.items():
        with open(f"{folder}/{name}", "w", encoding="ascii") as out:
            out.write(text)


main()
