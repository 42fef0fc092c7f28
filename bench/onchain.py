"""Measures what on-chain rules cost: a block under ten rules and a list of families beside one without them.

Run by hand, never by the gate, after `rt run` has built the program: python3 -B bench/onchain.py PROGRAM [TURNS [mixed]]

Both streams have a first block that sets the keys that may change settings, and two settings more: those of the rules, or
two that bind nothing. Behind it stands a block of 20,000 IntegerKey transactions, ten in a batch; `publish` makes one of the
16,600 for which a candidate has room. Runs of both take turns; printed are the least seconds of processor and on the wall, by
one worker and by four. With `mixed` every second transaction is of XO.
"""

import os
import subprocess
import sys
import tempfile
import time

sys.path.insert(0, os.path.join(os.path.dirname(__file__), "..", "tools"))

import batches
import counters
import usage
from applied import values
from families import number

TRANSACTIONS, ROOM, BATCH = 20_000, 16_600, 10
FAMILIES = '[{"family":"xo","version":"1.0"},{"family":"sawtooth_settings","version":"1.0"},{"family":"intkey","version":"1.0"}]'
RULES = (
    "NofX:20000,intkey; NofX:1,xo; NofX:100,sawtooth_settings; NofX:20000,other; XatY:intkey,0; XatY:intkey,-1;"
    "XatY:intkey,9999; local:0; local:1,2,3; local:16599"
)
MIXED = (
    "NofX:20000,intkey; NofX:20000,xo; NofX:100,sawtooth_settings; NofX:20000,other; XatY:intkey,0; XatY:xo,-1;"
    "XatY:xo,9999; local:0; local:1,2,3; local:16599"
)
SETTINGS = {
    "rules": ("sawtooth.validator.transaction_families", "sawtooth.validator.block_validation_rules"),
    "none": ("sawtooth.validator.transaction_familiez", "sawtooth.validator.block_validation_rulez"),
}


def run(words, stream):
    """Runs the program over a stream; gives seconds of processor, on the wall, and its output."""
    with tempfile.TemporaryFile() as file, tempfile.TemporaryFile() as output:
        file.write(stream)
        file.seek(0)
        begin = time.monotonic()
        child = subprocess.Popen(words, stdin=file, stdout=output, stderr=subprocess.DEVNULL)
        _, status, usage = os.wait4(child.pid, 0)
        wall = time.monotonic() - begin
        output.seek(0)
        told = output.read()
    if status != 0:
        sys.exit(f"{words}: status {os.waitstatus_to_exitcode(status)}")
    return usage.ru_utime + usage.ru_stime, wall, told


def listed(folder, nonce, texts):
    """The path of a batch list of these batches."""
    path = os.path.join(folder, nonce)
    with open(path, "wb") as file:
        file.write(batches.batch_list(batches.KEY, nonce, texts)[0])
    return path


def transaction(at, mixed):
    return f"xo create g{at}" if mixed and at % 2 else f"intkey set n{at} 1"


def first_batch(families, rules, mixed):
    keys = f"settings propose sawtooth.settings.vote.authorized_keys {batches.KEY}"
    return f"{keys}; settings propose {families} '{FAMILIES}'; settings propose {rules} '{MIXED if mixed else RULES}'"


def block_of(front, made, listed, root):
    """The stream of a first block and of one like `made` with all batches of a list, which states a root."""
    header, all_batches = values(made[4:], 1)[-1], values(listed, 1)
    ids = b"".join(counters.record(4, values(batch, 2)[-1]) for batch in all_batches)
    header = number(1, 1) + b"".join(counters.record(at, values(header, at)[-1]) for at in (2, 3)) + ids
    header += counters.record(5, "Devmode") + counters.record(6, root)
    block = counters.record(1, header) + counters.record(2, counters.sha512(batches.KEY.encode() + header))
    block += b"".join(counters.record(3, batch) for batch in all_batches)
    return front + len(block).to_bytes(4, "big") + block


def all_of(program, front, made, listed):
    """The same with the root that the program computes."""
    child = subprocess.run([program, "apply"], input=block_of(front, made, listed, "0" * 64), capture_output=True)
    root = child.stdout.decode().split(" refused 15 Root ")[1].split("\n")[0]
    return block_of(front, made, listed, root)


def streams_of(program, folder, firsts, texts):
    """By the names of the first batches: the streams of a first block, and those with the block of these batches behind it."""
    many, roomy = listed(folder, "many", texts), listed(folder, "roomy", texts[: ROOM // BATCH])
    with open(many, "rb") as file:
        content = file.read()
    first, whole = {}, {}
    for name, batch in firsts.items():
        _, _, first[name] = run([program, "publish", "--batches", listed(folder, name, [batch])], b"")
        _, _, second = run([program, "publish", "--batches", roomy], first[name])
        whole[name] = all_of(program, first[name], second, content)
    return first, whole, roomy


def compare(program, turns, firsts, transactions):
    """Prints what a block of these transactions takes behind the first of two first batches beside the second, `none`."""
    texts = ["; ".join(transactions[at : at + BATCH]) for at in range(0, len(transactions), BATCH)]
    with tempfile.TemporaryDirectory() as folder:
        first, whole, roomy = streams_of(program, folder, firsts, texts)
        for told, words, streams in (
            ("apply, 1 worker", ["apply", "--workers", "1"], whole),
            ("apply, 4 workers", ["apply", "--workers", "4"], whole),
            ("publish, 1 worker", ["publish", "--batches", roomy, "--workers", "1"], first),
        ):
            ran = [{name: run([program, *words], stream)[:2] for name, stream in streams.items()} for _ in range(turns)]
            least = {name: [min(turn[name][at] for turn in ran) for at in (0, 1)] for name in streams}
            (cpu, wall), (cpu_none, wall_none) = least.values()
            print(
                f"{told}: processor {cpu:.3f} s beside {cpu_none:.3f}, {cpu / cpu_none:.3f} times;"
                f" wall {wall:.3f} s beside {wall_none:.3f}, {wall / wall_none:.3f} times"
            )


def main():
    usage.words(__doc__, 1, 3)
    program, turns = sys.argv[1], int(sys.argv[2]) if len(sys.argv) > 2 else 7
    mixed = sys.argv[3:] == ["mixed"]
    firsts = {name: first_batch(*keys, mixed) for name, keys in SETTINGS.items()}
    compare(program, turns, firsts, [transaction(at, mixed) for at in range(TRANSACTIONS)])


if __name__ == "__main__":
    main()
