"""Measures what readers cost `apply`: three that ask without pause, and what a switch of the head publishes.

Run by hand, never by the gate, after `rt run` has built the program:
python3 -B bench/readers.py PROGRAM [RUNS]

First the time of 20,000 transactions in 4 blocks alone, beside three readers that do not ask, beside three that ask
without pause, and beside three that ask another run so, which waits for its input and shares the cores alone; in turns,
the middle of so many runs of each. Then the time of 100 blocks of ten new names each behind 1,000 names and behind
100,000, alone and beside a reader that does not ask: what lies between the least of the two is what the switches publish.
Times are those from the first byte that is fed to the last line.
"""

import multiprocessing
import os
import socket
import statistics
import subprocess
import sys
import tempfile
import time

HERE = os.path.dirname(os.path.abspath(__file__))
sys.path[:0] = [os.path.join(HERE, "..", "demo"), os.path.join(HERE, "..", "tools"), HERE]

import counters
import usage
from ask import Asked
from chain import stream
from compare import made

ADDRESS = counters.address("n0")
BLOCKS = 100


def free_port():
    with socket.create_server(("127.0.0.1", 0)) as listening:
        return listening.getsockname()[1]


def ask(port, asks, done, count):
    """Asks without pause until the run has ended, or only once it has."""
    asked = Asked.connected(port)
    answers = 0
    while not done.is_set():
        if asks:
            asked.ask(ADDRESS)
            answers += 1
        else:
            time.sleep(0.01)
    count.put(answers)


def run(program, parts, readers, asks, elsewhere=False):
    """The seconds from the last part's first byte to the last line, and how often was asked. Each part is fed once the
    blocks before it have their lines. Elsewhere: another run is asked, which has no input before this one's end."""
    port, done, count = free_port(), multiprocessing.Event(), multiprocessing.Queue()
    words = [program, "apply", "--workers", "1"]
    live = ["--live", str(port), "--readers", str(readers)] if readers else []
    # They begin before the pipes are there, which they would hold open.
    others = [multiprocessing.Process(target=ask, args=(port, asks, done, count), daemon=True) for _ in range(readers)]
    for other in others:
        other.start()
    asked = subprocess.Popen(words + live, stdin=subprocess.PIPE, stdout=subprocess.DEVNULL) if elsewhere else None
    child = subprocess.Popen(words + ([] if elsewhere else live), stdin=subprocess.PIPE, stdout=subprocess.PIPE)
    for content, lines in parts[:-1]:
        child.stdin.write(content)
        child.stdin.flush()
        for _ in range(lines):
            child.stdout.readline()
    time.sleep(1)
    begin = time.monotonic()
    child.stdin.write(parts[-1][0])
    child.stdin.close()
    line = b" "
    while line and not line.startswith(b"head "):
        line = child.stdout.readline()
    seconds = time.monotonic() - begin
    done.set()
    answers = sum(count.get() for _ in others)
    for other in others:
        other.join()
    child.wait()
    if asked:
        asked.communicate()
    return seconds, answers


def place_behind(content, count):
    """Where so many frames end."""
    at = 0
    for _ in range(count):
        at += 4 + int.from_bytes(content[at : at + 4], "big")
    return at


def beside_three(program, runs):
    with made(program, 4, 2500, 10) as file:
        file.seek(0)
        parts = [(file.read(), 4)]
    ways = {
        "alone": (0, False),
        "beside three that do not ask": (3, False),
        "beside three that ask": (3, True),
        "beside three that ask another run": (3, True, True),
    }
    times = {name: [] for name in ways}
    for _ in range(runs):
        for name, way in ways.items():
            times[name].append(run(program, parts, *way)[0])
    alone = statistics.median(times["alone"])
    for name, some in times.items():
        middle = statistics.median(some)
        print(f"{name}: {middle * 1000:.0f} ms, {min(some) * 1000:.0f} to {max(some) * 1000:.0f}, {middle / alone:.2f} times")


def published(program, names, runs):
    content, count = stream(names, BLOCKS, 10, 1)
    end = place_behind(content, count - BLOCKS)
    parts = [(content[:end], count - BLOCKS), (content[end:], BLOCKS)]
    times = [[run(program, parts, readers, False)[0] for readers in (0, 1)] for _ in range(runs)]
    alone, beside = (min(turn[at] for turn in times) for at in (0, 1))
    print(f"{BLOCKS} blocks behind {names} names: alone {alone * 1000:.1f} ms, published {beside * 1000:.1f} ms, {(beside - alone) * 1000 / BLOCKS:.3f} ms each")
    return beside - alone


def main():
    usage.words(__doc__, 1, 2)
    program, runs = sys.argv[1], int((sys.argv[2:3] or ["5"])[0])
    beside_three(program, runs)
    few, many = (published(program, names, runs) for names in (1000, 100000))
    print(f"{many / few:.2f} times")


if __name__ == "__main__":
    main()
