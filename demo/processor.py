"""Serves transaction families of one's own to a validator that listens. It needs Python alone.

A family is one function, and `main` makes a program of it; demo/names.py is an example:

    import processor

    def apply(transaction, state):
        if state.get(ADDRESS):
            raise processor.Invalid
        state.set(ADDRESS, transaction.payload)

    if __name__ == "__main__":
        processor.main(processor.Family("mine", "1.0", [NAMESPACE], apply))

What the function does must depend on the transaction and on the answers of the state alone: every member of a consortium
runs it, more than once if need be, and all have to come to the same state.

It refuses a transaction by `Invalid`. Any other exception is a fault of the processor, about which members could differ, so
the transaction is not told as invalid: the validator gets INTERNAL_ERROR, and ends its run with `fault 6 peer` where no
other processor answers; this one ends with `HandlerFailed`. The messages are those of proto/link.proto.
"""

import os
import re
import socket
import struct
import sys
import time
from typing import Callable, NamedTuple

# The types of messages. An answer has the next number.
REGISTER, PROCESS, GET, SET, DELETE, EVENT = 1, 5, 7, 9, 11, 15
OK, INVALID, INTERNAL_ERROR = 1, 2, 3

# How long a message may be, by the version of the link.
LIMITS = {1: 1_048_576, 2: 8_388_608}


class Invalid(Exception):
    """The transaction is refused, and with it its whole batch. The validator is not told why."""


class AuthorizationError(Invalid):
    """The validator refuses a request: the transaction does not declare the address, or is no longer needed."""


class TooLong(Exception):
    """A message is longer than the version of the link allows. Nothing of it was sent."""


class HandlerFailed(Exception):
    """The function of a family raised something other than `Invalid`, which is the cause of this exception."""


class LinkError(ConnectionError):
    """The link cannot go on."""


class NobodyListens(LinkError):
    """The port takes no connection."""


class Ended(LinkError):
    """The validator ended the link where an answer was due."""


class CutShort(LinkError):
    """The link ended within a message, or a message within one of its fields."""


class NotTheAnswer(LinkError):
    """What came is not the answer to the request."""


# Messages (Protocol Buffers, "Encoding").


def varint(value):
    """The bytes of a number."""
    made = bytearray()
    while value > 127:
        made.append(value % 128 + 128)
        value //= 128
    return bytes(made) + bytes([value])


def number(field, value):
    """A field with a number."""
    return varint(field << 3) + varint(value)


def record(field, value):
    """A field with bytes, or with a text."""
    value = value if isinstance(value, bytes) else value.encode()
    return varint(field << 3 | 2) + varint(len(value)) + value


def read_varint(data, at):
    """The number that begins there, and where it ends."""
    value = shift = 0
    while at < len(data):
        byte = data[at]
        value |= (byte & 127) << shift
        at, shift = at + 1, shift + 7
        if byte < 128:
            return value, at
    raise CutShort("a message ended within a number")


def fields(data):
    """The values of each field of a message, in order."""
    found, at = {}, 0
    while at < len(data):
        key, at = read_varint(data, at)
        if key & 7 == 0:
            value, at = read_varint(data, at)
        else:
            size, at = (8, at) if key & 7 == 1 else (4, at) if key & 7 == 5 else read_varint(data, at)
            value, at = data[at : at + size], at + size
        found.setdefault(key >> 3, []).append(value)
    if at > len(data):
        raise CutShort("a message ended within a field")
    return found


def last(found, field, default=b""):
    """The last value of a field, which is the one that counts."""
    return found.get(field, [default])[-1]


def texts(found, field):
    """All values of a field, as texts."""
    return [value.decode() for value in found.get(field, [])]


def text(found, field):
    """The last value of a field, as a text."""
    return last(found, field).decode()


# The link.


def connect(port, seconds=10):
    """A connection to a port of this machine, tried again for so many seconds."""
    until = time.monotonic() + seconds
    while True:
        try:
            connection = socket.create_connection(("127.0.0.1", port))
            connection.setsockopt(socket.IPPROTO_TCP, socket.TCP_NODELAY, 1)
            return connection
        except ConnectionRefusedError as error:
            if time.monotonic() > until:
                raise NobodyListens(f"nobody listens on port {port}") from error
            time.sleep(0.05)


class Link:
    """Messages to and from the validator, over a connection. Its version is 1 until a registration is answered."""

    def __init__(self, connection):
        self.connection, self.version, self.asked = connection, 1, 0

    def send(self, kind, correlation, content):
        """Sends a message of this type, correlation id and content."""
        message = number(1, kind) + record(2, correlation) + record(3, content)
        limit = LIMITS[self.version]
        if len(message) > limit:
            raise TooLong(f"a message of {len(message)} bytes, and version {self.version} of the link allows {limit}")
        try:
            self.connection.sendall(struct.pack(">I", len(message)) + message)
        except OSError as error:
            raise LinkError(f"the link broke: {error.strerror}") from error

    def read(self, size):
        """So many bytes, or fewer where the link ends."""
        data = b""
        try:
            while len(data) < size and (more := self.connection.recv(size - len(data))):
                data += more
        except OSError as error:
            raise LinkError(f"the link broke: {error.strerror}") from error
        return data

    def receive(self):
        """The next message: its type, correlation id and content. `None` where the validator has ended the link."""
        head = self.read(4)
        if not head:
            return None
        size = struct.unpack(">I", head)[0] if len(head) == 4 else 0
        if size > LIMITS[2]:
            raise LinkError(f"a message of {size} bytes is announced, and no version of the link allows it")
        content = self.read(size)
        if len(head) < 4 or len(content) < size:
            raise CutShort("the link ended within a message")
        found = fields(content)
        return last(found, 1, 0), last(found, 2).decode(errors="replace"), last(found, 3)

    def ask(self, kind, content):
        """Sends a request, and gives the fields of its answer."""
        self.asked += 1
        self.send(kind, str(self.asked), content)
        answer = self.receive()
        if answer is None:
            raise Ended("the validator ended the link")
        if answer[:2] != (kind + 1, str(self.asked)):
            raise NotTheAnswer(f"not the answer to request {self.asked}: type {answer[0]}, correlation id {answer[1]!r}")
        return fields(answer[2])


# What a family is, and what its function is given.


class Transaction(NamedTuple):
    """What a transaction states. Keys and the id are hex digits, inputs and outputs prefixes of addresses."""

    id: str
    family: str
    version: str
    signer: str
    batcher: str
    inputs: list
    outputs: list
    dependencies: list
    nonce: str
    payload: bytes


class State:
    """The state, as far as the inputs and outputs of the transaction allow. Else a call raises `AuthorizationError`."""

    def __init__(self, link, context):
        self.link, self.context = link, record(1, context)

    def ask(self, kind, content):
        """The fields of the answer to a request for this transaction."""
        answer = self.link.ask(kind, self.context + content)
        if last(answer, 2, 0) != OK:
            raise AuthorizationError
        return answer

    def get(self, address):
        """The data at an address; no bytes where there is no entry."""
        entry = fields(last(self.ask(GET, record(2, address)), 1))
        return last(entry, 2)

    def set(self, address, data):
        """Puts data at an address."""
        self.ask(SET, record(2, record(1, address) + record(2, data)))

    def delete(self, address):
        """Takes the entry at an address away."""
        self.ask(DELETE, record(2, address))

    def event(self, kind, attributes=(), data=b""):
        """Adds an event to the receipt of the transaction: its type, pairs of texts, and data."""
        pairs = [record(2, record(1, key) + record(2, value)) for key, value in attributes]
        self.ask(EVENT, record(2, record(1, kind) + b"".join(pairs) + record(3, data)))


class Family(NamedTuple):
    """A family: its name and version, the prefixes of its addresses, and its function of a transaction and the state."""

    name: str
    version: str
    namespaces: list
    apply: Callable[[Transaction, State], None]


# The conversation.


def register(link, families):
    """Offers the families on version 2 of the link, and learns whether the validator has it."""
    for place, family in enumerate(families, 1):
        offer = record(1, family.name) + record(2, family.version)
        offer += b"".join(record(4, prefix) for prefix in family.namespaces)
        offer += number(6, 2) + number(9, place < len(families))
        answer = link.ask(REGISTER, offer)
        if last(answer, 1, 0) != OK:
            raise LinkError(f"the validator refused the family {family.name} {family.version}")
        link.version = 2 if last(answer, 2, 0) == 2 else 1


def transaction_of(link, request):
    """The transaction of a request. The number of the header's field is the version's."""
    header = fields(last(request, 5 if link.version == 2 else 1))
    return Transaction(
        id=text(request, 3),
        family=text(header, 3),
        version=text(header, 4),
        signer=text(header, 10),
        batcher=text(header, 1),
        inputs=texts(header, 5),
        outputs=texts(header, 7),
        dependencies=texts(header, 2),
        nonce=text(header, 6),
        payload=last(request, 2),
    )


def process(link, families, correlation, content):
    """Answers a transaction."""
    request = fields(content)
    transaction = transaction_of(link, request)
    offered = [each for each in families if each[:2] == (transaction.family, transaction.version)]
    if not offered:
        raise LinkError(f"a transaction of {transaction.family} {transaction.version} came, which is not offered")
    status, cause = OK, None
    try:
        offered[0].apply(transaction, State(link, last(request, 4)))
    except Invalid:
        status = INVALID
    except LinkError:
        raise
    except Exception as error:
        status, cause = INTERNAL_ERROR, error
    link.send(PROCESS + 1, correlation, number(1, status))
    if cause:
        raise HandlerFailed(f"transaction {transaction.id} of {transaction.family}: {cause!r}") from cause


def serve(port, *families):
    """Serves the families to the validator on a port of this machine, until it ends the link. Gives how many transactions
    were answered."""
    with connect(port) as connection:
        link, count = Link(connection), 0
        register(link, families)
        while message := link.receive():
            kind, correlation, content = message
            if kind != PROCESS:
                raise LinkError(f"a message of type {kind} came where a transaction is due")
            process(link, families, correlation, content)
            count += 1
        return count


def main(*families):
    """A program that serves the families on the port that its one argument names, and says how many transactions were
    answered. Its status is 0 where the validator ended the link, 130 after Ctrl-C, and 1 otherwise."""
    words, name = sys.argv[1:], os.path.basename(sys.argv[0])
    usage = f"usage: python3 -B {sys.argv[0]} PORT"
    if words == ["--help"]:
        print(usage)
        return
    if len(words) != 1 or not re.fullmatch("[0-9]{1,5}", words[0]) or not 0 < int(words[0]) < 65536:
        sys.exit(usage)
    try:
        line = f"{serve(int(words[0]), *families)} transactions answered"
    except Ended as error:
        line = error
    except OSError as error:
        sys.exit(f"{name}: {error}")
    except KeyboardInterrupt:
        sys.exit(130)
    try:
        print(line, flush=True)
    except OSError as error:
        # What is still to be written goes nowhere.
        os.dup2(os.open(os.devnull, os.O_WRONLY), sys.stdout.fileno())
        sys.exit(f"{name}: cannot write: {error.strerror}")
