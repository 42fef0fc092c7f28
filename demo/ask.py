"""Asks what the head's state has at addresses, while `sawval apply --live PORT --readers N` applies blocks.

Usage: python3 -B demo/ask.py PORT ADDRESS .. [OPTION ..]
       python3 -B demo/ask.py --test

PORT is on 127.0.0.1; it tries for ten seconds to connect. ADDRESS has 70 hex digits in lower case. The program waits
until as many readers have connected as it was told, each of them one call of this one.

--every SECONDS    how long it waits before it asks for all of them again; 1 without it
--times N          how often it asks for all of them; once without it
--long             ids and roots with all their digits, and not with the first 8
--decode           values of IntegerKey as NAME=NUMBER ..; other values stay as they are
--test             asks a reader's end of its own and compares: needs no program and no port

It prints a line for each answer:

    ADDRESS none               no block is accepted yet
    ADDRESS N ID ROOT HEX      the head has the number N, this id and this root, and its state has this value there
    ADDRESS N ID ROOT -        its state has no entry there
    ADDRESS refused            this is no address

The status is 0, 1 where the connection is lost or cannot be had or a line cannot be written, or 2 for invalid
arguments.

In a program of your own take `Asked`: `connected(port)` and `ask(address)`.
"""

import argparse
import contextlib
import io
import os
import re
import socket
import struct
import sys
import threading
import time
from typing import NamedTuple, Optional

LONGEST = 16_777_216
SECONDS = 10
PAUSE = 0.1
SHORT = 8


class Lost(Exception):
    """There is no connection any more, or none came."""


class Head(NamedTuple):
    """What the state of a head has at an address; None where it has no entry."""

    number: int
    block: str
    root: str
    value: Optional[bytes]


# --- the connection ---


def connection_to(port):
    """A connection to the port, once someone listens there."""
    until = time.monotonic() + SECONDS
    while True:
        try:
            return socket.create_connection(("127.0.0.1", port))
        except OSError:
            if time.monotonic() > until:
                raise Lost(f"nobody listens on port {port}") from None
            time.sleep(PAUSE)


def frame(text):
    """A text behind its length in four bytes, the highest first."""
    return struct.pack(">I", len(text)) + text


class Asked:
    """The other end of a connection: one answer to each question, in order."""

    def __init__(self, connection):
        self.connection = connection
        connection.setsockopt(socket.IPPROTO_TCP, socket.TCP_NODELAY, 1)

    @classmethod
    def connected(cls, port):
        return cls(connection_to(port))

    def __enter__(self):
        return self

    def __exit__(self, *fault):
        self.connection.close()

    def taken(self, count):
        """The next bytes, as many as this."""
        parts = []
        while count:
            part = self.connection.recv(min(count, 1 << 16))
            if not part:
                raise Lost("the connection ended")
            parts.append(part)
            count -= len(part)
        return b"".join(parts)

    def answer(self, question):
        """The text that is said to a text."""
        try:
            self.connection.sendall(frame(question.encode()))
            (length,) = struct.unpack(">I", self.taken(4))
            if length > LONGEST:
                raise Lost(f"an answer of {length} bytes is none")
            return self.taken(length).decode()
        except (OSError, UnicodeDecodeError) as error:
            raise Lost(f"the connection failed: {error}") from None

    def ask(self, address):
        """The head and its value at an address; None before the first head."""
        return read(self.answer(address))


# --- answers ---


def read(answer):
    """What an answer tells: None for `none`."""
    if answer == "none":
        return None
    if answer == "refused":
        raise ValueError("this is no address")
    found = re.fullmatch(r"(\d+) ([0-9a-f]*) ([0-9a-f]{64}) (-|(?:[0-9a-f]{2})*)", answer)
    if not found:
        raise Lost(f"an answer of no known form: {answer[:80]!r}")
    number, block, root, value = found.groups()
    return Head(int(number), block, root, None if value == "-" else bytes.fromhex(value))


def counted(data, at):
    """A head of CBOR (RFC 8949, section 3): its kind, its number, and where it ends."""
    kind, small = data[at] >> 5, data[at] & 31
    if small < 24:
        return kind, small, at + 1
    if small > 27:
        raise ValueError("a head that IntegerKey has not")
    end = at + 1 + (1 << (small - 24))
    if end > len(data):
        raise ValueError("it ends early")
    return kind, int.from_bytes(data[at + 1 : end], "big"), end


def names_in(value):
    """The names and numbers of a value of IntegerKey: a CBOR map, mostly of one name."""
    try:
        kind, count, at = counted(value, 0)
        if kind != 5:
            raise ValueError("it is no map")
        names = {}
        for _ in range(count):
            kind, length, at = counted(value, at)
            name = value[at : at + length]
            if kind != 3 or len(name) < length:
                raise ValueError("it has no name")
            kind, number, at = counted(value, at + length)
            if kind > 1:
                raise ValueError("it has no number")
            names[name.decode()] = -1 - number if kind else number
        if at < len(value):
            raise ValueError("it goes on")
        return names
    except IndexError:
        raise ValueError("it ends early") from None


def value_text(value, decode):
    if value is None:
        return "-"
    if decode:
        with contextlib.suppress(ValueError):
            return " ".join(f"{name}={number}" for name, number in names_in(value).items())
    return value.hex()


def shown(answer, long=False, decode=False):
    """The answer as it is printed."""
    try:
        head = read(answer)
    except ValueError:
        return answer
    if head is None:
        return answer
    end = None if long else SHORT
    return f"{head.number} {head.block[:end]} {head.root[:end]} {value_text(head.value, decode)}"


# --- the program ---


def ask_all(asked, words):
    """Asks for each address as often as is wished."""
    for turn in range(words.times):
        if turn:
            time.sleep(words.every)
        for address in words.addresses:
            print(address, shown(asked.answer(address), words.long, words.decode), flush=True)


def arguments(words):
    shape = argparse.RawDescriptionHelpFormatter
    parser = argparse.ArgumentParser(
        prog="ask.py", description=__doc__, usage=argparse.SUPPRESS, formatter_class=shape, allow_abbrev=False
    )
    parser.add_argument("--every", type=float, default=1.0, metavar="SECONDS", help=argparse.SUPPRESS)
    parser.add_argument("--times", type=int, default=1, metavar="N", help=argparse.SUPPRESS)
    for name in ("--long", "--decode"):
        parser.add_argument(name, action="store_true", help=argparse.SUPPRESS)
    parser.add_argument("port", type=int, metavar="PORT", help=argparse.SUPPRESS)
    parser.add_argument("addresses", nargs="+", metavar="ADDRESS", help=argparse.SUPPRESS)
    words = parser.parse_intermixed_args(words)
    if not 1 <= words.port <= 65535:
        parser.error(f"{words.port} is no port: 1 to 65535")
    if words.times < 1:
        parser.error("--times is at least 1")
    if not 0 <= words.every < float("inf"):
        parser.error("--every is no negative number of seconds")
    for address in words.addresses:
        if not re.fullmatch("[0-9a-f]{70}", address):
            parser.error(f"{address!r} is no address: 70 hex digits in lower case")
    return words


def run(words):
    words = arguments(words)
    try:
        with Asked.connected(words.port) as asked:
            ask_all(asked, words)
    except Lost as lost:
        print(f"ask.py: {lost}", file=sys.stderr)
        return 1
    except OSError as error:
        # What is still to be written goes nowhere. It is no failure where whoever reads the lines has gone.
        os.dup2(os.open(os.devnull, os.O_WRONLY), sys.stdout.fileno())
        if not isinstance(error, BrokenPipeError):
            print(f"ask.py: cannot write: {error.strerror}", file=sys.stderr)
            return 1
    except KeyboardInterrupt:
        pass
    return 0


# --- a test of its own ---

PLACE, OTHER = "1cf126" + "0" * 64, "1cf126" + "1" * 64
ID, ROOT = "ab" * 64, "cd" * 32
COUNTED = bytes.fromhex("a16162182a")
ANSWERS = ["none", f"0 {ID} {ROOT} -", f"12 {ID} {ROOT} {COUNTED.hex()}", "refused", f"13 {ID} {ROOT} "]
SHOWN = ["none", "0 abababab cdcdcdcd -", f"12 abababab cdcdcdcd {COUNTED.hex()}", "refused", "13 abababab cdcdcdcd "]


def serve(listening, answers, heard):
    """One reader's end: says these answers, each in two pieces, and goes."""
    connection, _ = listening.accept()
    with connection:
        for answer in answers:
            (length,) = struct.unpack(">I", connection.recv(4, socket.MSG_WAITALL))
            heard.append(connection.recv(length, socket.MSG_WAITALL).decode())
            said = frame(answer.encode())
            connection.sendall(said[:3])
            time.sleep(0.01)
            connection.sendall(said[3:])


def told(answers, *words):
    """What this program prints over these answers: its status, output and notes, and what it asked."""
    heard, output, notes = [], io.StringIO(), io.StringIO()
    with socket.create_server(("127.0.0.1", 0)) as listening:
        server = threading.Thread(target=serve, args=(listening, answers, heard), daemon=True)
        server.start()
        with contextlib.redirect_stdout(output), contextlib.redirect_stderr(notes):
            status = run([str(listening.getsockname()[1]), *words])
        server.join(SECONDS)
    return status, output.getvalue(), notes.getvalue(), heard


def refused(*words):
    """The status of invalid arguments, and their notes."""
    notes = io.StringIO()
    with contextlib.redirect_stderr(notes):
        try:
            return run(list(words)), notes.getvalue()
        except SystemExit as ended:
            return ended.code, notes.getvalue()


def lines(address, answers):
    return "".join(f"{address} {answer}\n" for answer in answers)


def check(name, got, wanted):
    if got != wanted:
        sys.exit(f"ask.py: {name}: {got!r} is said, {wanted!r} is wanted")


def test():
    count = str(len(ANSWERS))
    again = ("--every", "0", "--times", count)
    check("short", told(ANSWERS, PLACE, *again), (0, lines(PLACE, SHOWN), "", [PLACE] * len(ANSWERS)))
    check("long", told(ANSWERS, *again, PLACE, "--long"), (0, lines(PLACE, ANSWERS), "", [PLACE] * len(ANSWERS)))
    named = "12 abababab cdcdcdcd b=42"
    check("decoded", told(ANSWERS[2:3], PLACE, "--decode"), (0, lines(PLACE, [named]), "", [PLACE]))
    both = lines(PLACE, SHOWN[:1]) + lines(OTHER, SHOWN[1:2])
    check("two", told(ANSWERS[:2], PLACE, OTHER), (0, both, "", [PLACE, OTHER]))
    gone = (1, lines(PLACE, SHOWN[:1]), "ask.py: the connection ended\n", [PLACE])
    check("gone", told(ANSWERS[:1], PLACE, "--times", "2", "--every", "0"), gone)
    check("foreign", told(["hello"], PLACE)[0::3], (1, [PLACE]))
    check("numbers", names_in(bytes.fromhex("a2616100616239fff0")), {"a": 0, "b": -65521})
    for value in ("", "00", "a1", "a16161", "a1616119", "a10001", "a161610000", "a1616141", "bf", "a1616101ff"):
        check("no decoding", value_text(bytes.fromhex(value), True), value)
    good = ["7000", PLACE]
    ports = [[port, PLACE] for port in ("0", "65536", "x")]
    places = [["7000"], ["7000", PLACE[1:]], ["7000", PLACE.replace("c", "C")]]
    options = [[*good, *more] for more in (["--times", "0"], ["--every", "-1"], ["--every", "nan"], ["--bad"])]
    for words in [[], *ports, *places, *options]:
        status, notes = refused(*words)
        check(words, (status, "error: " in notes), (2, True))
    print("passed")


if __name__ == "__main__":
    sys.exit(test() if sys.argv[1:] == ["--test"] else run(sys.argv[1:]))
