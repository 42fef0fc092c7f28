"""Measures `apply` with processors elsewhere that take a while for each transaction, by their number and that of workers.

Run by hand, never by the gate, after `rt run` has built the program:
python3 -B bench/processors.py PROGRAM [TRANSACTIONS MILLISECONDS RUNS]

One block holds so many claims of different names, each in a batch of its own, for the family of demo/names.py. Each
processor is that one with so many milliseconds of sleep before each transaction. It prints the best of so many runs.
"""

import os
import socket
import subprocess
import sys
import tempfile
import time

ROOT = os.path.join(os.path.dirname(os.path.abspath(__file__)), "..")
sys.path[:0] = [os.path.join(ROOT, "demo"), os.path.join(ROOT, "tools")]

import usage

COUNTS = (1, 2, 4)


def serve(port, milliseconds):
    """A processor that sleeps before each transaction."""
    import names
    import processor

    def late(transaction, state):
        time.sleep(milliseconds / 1000)
        names.apply(transaction, state)

    processor.serve(int(port), names.FAMILY._replace(apply=late))


def free_port():
    with socket.socket() as one:
        one.bind(("127.0.0.1", 0))
        return str(one.getsockname()[1])


def run(program, words, count, milliseconds, stdin):
    """The output of a run with so many processors and workers, and its seconds from the first byte on."""
    port = free_port()
    begin = time.monotonic()
    options = ["--listen", port, "--remotes", str(count), "--workers", str(count)]
    child = subprocess.Popen([program, *words, *options], stdin=stdin, stdout=subprocess.PIPE)
    this = [sys.executable, "-B", os.path.abspath(__file__), "--serve", port, str(milliseconds)]
    served = [subprocess.Popen(this, stdout=subprocess.DEVNULL) for _ in range(count)]
    output = child.stdout.read()
    if child.wait() != 0:
        sys.exit(f"{program}: status {child.returncode}")
    for each in served:
        each.wait()
    return output, time.monotonic() - begin


def block(program, transactions, folder):
    """A file with the block."""
    names = os.path.join(folder, "claims")
    texts = [f"names claim n{index}" for index in range(transactions)]
    subprocess.run([sys.executable, "-B", f"{ROOT}/tools/batches.py", names, *texts], check=True)
    output, _ = run(program, ["publish", "--batches", names], 1, 0, subprocess.DEVNULL)
    made = os.path.join(folder, "block")
    with open(made, "wb") as file:
        file.write(output)
    return made


def measure(program, made, count, milliseconds):
    """The seconds of a run, and its report."""
    with open(made, "rb") as file:
        report, seconds = run(program, ["apply"], count, milliseconds, file)
    return seconds, report


def main():
    if sys.argv[1:2] == ["--serve"]:
        return serve(sys.argv[2], float(sys.argv[3]))
    usage.words(__doc__, 1, 4)
    program = os.path.abspath(sys.argv[1])
    transactions, milliseconds, runs = (int(word) for word in sys.argv[2:5] or ("400", "5", "3"))
    with tempfile.TemporaryDirectory() as folder:
        made = block(program, transactions, folder)
        none = min(measure(program, made, 1, 0)[0] for _ in range(runs))
        print(f"{transactions} claims; by one processor that does not sleep {none:.2f} s")
        print("processors and workers      best, s    times the speed of one")
        first, said = None, None
        for count in COUNTS:
            seconds, report = min(measure(program, made, count, milliseconds) for _ in range(runs))
            first, said = first or seconds, said or report
            if report != said:
                sys.exit("the reports differ")
            print(f"{count:22}{seconds:13.2f}{first / seconds:26.2f}")


if __name__ == "__main__":
    main()
