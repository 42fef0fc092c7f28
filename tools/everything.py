"""Applies a chain with all that a run knows of, by several numbers of workers, and compares what they say.

Usage: python3 -B tools/everything.py PROGRAM [BLOCKS]

Each block, of 1,000 where no number is given, is one that `publish` made behind those before it: counters, games, settings,
policies and roles in batches of two signers, by rules on families and on blocks; some batches fail, are denied or are
dropped by a rule. Beside each twentieth block stands another one, so that there are forks. Then `apply`, `receipts`,
`events`, `state` and `apply --live`, beside three readers that ask without pause, run over the chain by 1, 2, 4 and 64
workers. The status is 0 only if output, notes and status of all are equal.
"""

import hashlib
import multiprocessing
import os
import subprocess
import sys
import tempfile

HERE = os.path.dirname(os.path.abspath(__file__))
sys.path[:0] = [os.path.join(HERE, "..", "bench"), os.path.join(HERE, "..", "demo"), HERE]

import batches
import usage
from readers import ask, free_port

FIRST, SECOND = batches.KEY, "03" + "2" * 64
WORKERS = (1, 2, 4, 64)
FORKS = 20
FAMILIES = "sawtooth.validator.transaction_families"
RULES = "sawtooth.validator.block_validation_rules"
KNOWN = ("intkey", "xo", "sawtooth_settings", "sawtooth_identity")
COMMANDS = {
    "apply": [],
    "receipts": [],
    "events": ["--type", "sawtooth/state-delta"],
    "state": [],
}


def settings():
    """The words of the first batch: who may set settings and policies, the families and the rules."""
    listed = ",".join(f'{{"family":"{name}","version":"1.0"}}' for name in KNOWN)
    return "; ".join([
        f"settings propose sawtooth.settings.vote.authorized_keys {FIRST}",
        f"settings propose sawtooth.identity.allowed_keys {FIRST}",
        f"settings propose {FAMILIES} '[{listed}]'",
        f"settings propose {RULES} 'NofX:4,intkey;NofX:6,xo;local:0'",
    ])


def texts_of(at):
    """The batches of the first signer, and of the second, for the block at this place."""
    first = [f"intkey set n{at} {at}; intkey inc n{max(at - 1, 1)} 2", f"intkey dec n{at} {2 * at + 1}"]
    second = [f"xo create g{at}; xo take g{at} 5", f"xo take g{max(at - 1, 1)} {1 + at % 9}"]
    if at % 3 == 0:
        first.append("; ".join(f"intkey set m{at}_{place} 1" for place in range(4)))
    if at % 10 == 0:
        first.append(f"settings propose some.setting.{at} value{at}")
    if at % 25 == 0:
        ruling = "deny" if at % 50 else "permit"
        policy = f"identity policy p{at} {ruling} {SECOND} permit *"
        first.append(f"{policy}; identity role transactor.transaction_signer.xo p{at}")
    return first, second


def listed(at):
    """The batch list of a block."""
    if at == 0:
        return batches.batch_list(FIRST, "0", [settings()])[0]
    first, second = texts_of(at)
    return batches.batch_list(FIRST, str(at), first)[0] + batches.batch_list(SECOND, str(at), second)[0]


def run(program, words, stream):
    child = subprocess.run([program, *words], input=stream, capture_output=True)
    return child.stdout, child.stderr, child.returncode


def chain(program, blocks):
    """The stream, and how many batches were dropped on its way."""
    stream, before, dropped = b"", b"", 0
    with tempfile.TemporaryDirectory() as folder:
        path = os.path.join(folder, "list")
        for at in range(blocks):
            with open(path, "wb") as file:
                file.write(listed(at))
            made, notes, _ = run(program, ["publish", "--batches", path], stream)
            dropped += notes.count(b"dropped")
            if at % FORKS == 1 and at > 1:
                with open(path, "wb") as file:
                    file.write(batches.batch_list(FIRST, f"fork{at}", [f"intkey set f{at} 1"])[0])
                made += run(program, ["publish", "--batches", path], before)[0]
            before, stream = stream, stream + made
    return stream, dropped


def beside_readers(program, stream, workers):
    """What `apply` says beside three readers that ask without pause, and how many answers they had."""
    port, done, count = free_port(), multiprocessing.Event(), multiprocessing.Queue()
    others = [multiprocessing.Process(target=ask, args=(port, True, done, count), daemon=True) for _ in range(3)]
    for other in others:
        other.start()
    words = ["apply", "--workers", str(workers), "--live", str(port), "--readers", "3"]
    lines = []
    with tempfile.TemporaryFile() as file:
        file.write(stream)
        file.seek(0)
        child = subprocess.Popen([program, *words], stdin=file, stdout=subprocess.PIPE, stderr=subprocess.PIPE)
        for line in child.stdout:
            lines.append(line)
            if line.startswith(b"head"):
                done.set()
    done.set()
    answers = sum(count.get() for _ in others)
    return (b"".join(lines), child.stderr.read(), child.wait()), answers


def main():
    words = usage.words(__doc__, 1, 2)
    program, blocks = os.path.abspath(words[0]), int(words[1]) if len(words) > 1 else 1000
    stream, dropped = chain(program, blocks)
    apart = 0
    print(f"{blocks} blocks, {len(stream)} bytes, {dropped} batches dropped by publish")
    for command, options in COMMANDS.items():
        said = {workers: run(program, [command, *options, "--workers", str(workers)], stream) for workers in WORKERS}
        if command == "apply":
            answers = 0
            for workers in WORKERS:
                said[f"{workers} beside readers"], more = beside_readers(program, stream, workers)
                answers += more
            counts = [f"{said[1][0].count(f' {verdict} '.encode())} {verdict}" for verdict in ("committed", "stored", "refused")]
            print(", ".join(counts), f"and {answers} answers to readers")
        differ = [workers for workers, one in said.items() if one != said[1]]
        apart += len(differ)
        digest = hashlib.sha256(said[1][0]).hexdigest()[:16]
        print(f"{command}: {len(said)} runs, {len(said[1][0])} bytes, {digest}, status {said[1][2]}, {len(differ)} differ")
    sys.exit(1 if apart else 0)


if __name__ == "__main__":
    main()
