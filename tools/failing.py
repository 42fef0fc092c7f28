"""Makes the cases of saw_cases in which a call fails, those in which a frame or a file states more than it has, and those
of options in their forms and orders.

What each is to say is written here by hand.
Usage: python3 tools/failing.py crates/saw_cases/data/cases
"""

import os

import generator
import usage
from counters import half, head, record, text

(FOLDER,) = usage.words(__doc__, 1)
# A frame without content: a block without a signature, whose id is no text of 128 digits.
EMPTY = bytes(4)
REFUSED = "block 0 refused 2 IdText\n"
# A frame that states five bytes and has one.
CUT = b"\0\0\0\5\n"
# A varint of the highest number that 64 bits have.
MOST = b"\xff" * 9 + b"\1"
ADDRESS = "1c" + "0" * 68
# Of a run that tells nothing on the notes and fetches no file.
NO_CALLS = {"fail_notes": [0], "fail_fetches": [0]}


def put(name, words, stdin=b"", stdout="", stderr="", status=0, files=(), **failing):
    folder = f"{FOLDER}/{name}"
    os.makedirs(folder, exist_ok=True)
    stored = {
        "words": "".join(word + "\n" for word in words).encode(),
        "stdin": stdin,
        "stdout": stdout if isinstance(stdout, bytes) else stdout.encode(),
        "stderr": stderr.encode(),
        "status": f"{status}\n".encode(),
    }
    for calls, numbers in failing.items():
        stored[calls] = "".join(f"{number}\n" for number in numbers).encode()
    for file, content in files:
        os.makedirs(f"{folder}/files", exist_ok=True)
        stored[f"files/{file}"] = content
    for file, content in stored.items():
        with open(f"{folder}/{file}", "wb") as out:
            out.write(content)


def failing():
    # A frame without content takes one read.
    put("failed-read-first", ["apply"], EMPTY * 2, "", "fault 4 read\n", 4, fail_reads=[0])
    put("failed-read-second", ["apply"], EMPTY * 2, REFUSED, "fault 4 read\n", 4, fail_reads=[1])
    put("failed-write-first", ["apply"], EMPTY * 2, "", "fault 5 write\n", 5, fail_writes=[0])
    put("failed-write-second", ["apply"], EMPTY * 2, REFUSED, "fault 5 write\n", 5, fail_writes=[1])
    put("failed-write-head", ["apply"], EMPTY, REFUSED, "fault 5 write\n", 5, fail_writes=[1])
    put("failed-note-of-a-fault", ["apply"], EMPTY[:2], "", "", 3, fail_notes=[0])
    put("failed-state-read-second", ["state"], EMPTY * 2, "", REFUSED + "fault 4 read\n", 4, fail_reads=[1])
    put("failed-state-note-first", ["state"], EMPTY * 2, "", "fault 5 write\n", 5, fail_notes=[0])
    put("failed-state-note-second", ["state"], EMPTY * 2, "", REFUSED + "fault 5 write\n", 5, fail_notes=[1])
    attest = ["apply", "--attest", "list"]
    # The list comes before the stream: nothing is read where it is missing, failed or bad.
    put("failed-fetch", attest, EMPTY, "", "fault 11 failed\n", 11, [("list", b"\n")], fail_fetches=[0], fail_reads=[0])
    put("missing-list-before-the-stream", attest, EMPTY, "", "fault 11 missing\n", 11, fail_reads=[0])
    put("bad-list-before-the-stream", attest, EMPTY, "", "fault 11 badline 1\n", 11, [("list", b"a line")], fail_reads=[0])
    put("stream-behind-a-good-list", attest, EMPTY, "", "fault 4 read\n", 4, [("list", b"\n")], fail_reads=[0])


def kept(name, file):
    """What a case has in a file."""
    with open(f"{FOLDER}/{name}/{file}", "rb") as content:
        return content.read()


def like(name, other, stdout="", stderr="fault 5 write\n", status=5, **failing):
    """The run of another case in which a call fails."""
    words = kept(other, "words").decode().split("\n")[:-1]
    folder = f"{FOLDER}/{other}/files"
    files = [(file, kept(other, f"files/{file}")) for file in sorted(os.listdir(folder))] if os.path.isdir(folder) else []
    put(name, words, kept(other, "stdin"), stdout, stderr, status, files, **failing)


def over(name, other, words, stdout="", stderr="", status=0, **failing):
    """A run over the stream of another case."""
    put(name, words, kept(other, "stdin"), stdout, stderr, status, **failing)


def forks():
    # A frame takes two reads, its length and its content, and the stream's end one; each line is one write.
    lines = kept("head-lower-first", "stdout").decode().splitlines(keepends=True)
    frames = len(lines) - 1
    for read in range(2 * frames + 1):
        said = "".join(lines[: read // 2])
        like(f"failed-fork-read-{read}", "head-lower-first", said, "fault 4 read\n", 4, fail_reads=[read])
    for write in range(frames + 1):
        like(f"failed-fork-write-{write}", "head-lower-first", "".join(lines[:write]), fail_writes=[write])
    behind = {"fail_reads": [2 * frames + 1], "fail_writes": [frames + 1]} | NO_CALLS
    like("fork-makes-no-more-calls", "head-lower-first", "".join(lines), "", 0, **behind)


def untold():
    # Where the fault's line fails, too, its status stays.
    put("failed-write-and-note", ["apply"], b"", "", "", 5, fail_writes=[0], fail_notes=[0])
    put("failed-state-read-and-note", ["state"], EMPTY * 2, "", REFUSED, 4, fail_reads=[1], fail_notes=[1])
    like("failed-publish-loss-and-note", "publish-dependency-failed", "", "", fail_notes=[0, 1])


def proofs():
    # The one block of this stream leaves the empty state, whose proofs have one node. Where the end of the stream cannot
    # be read there is a head, and nothing is told of it.
    words, stream = ["prove", "--address", ADDRESS], "prove-empty-state-1c"
    over("failed-prove-read", stream, words, "", "fault 4 read\n", 4, fail_reads=[2])
    over("failed-prove-write", stream, words, "", "fault 5 write\n", 5, fail_writes=[0])
    behind = {"fail_reads": [3], "fail_writes": [1]} | NO_CALLS
    over("prove-makes-no-more-calls", stream, words, "a26163a06176f6\n", **behind)
    first = kept("prove-present", "stdout").decode().splitlines(keepends=True)[0]
    like("failed-prove-second-write", "prove-present", first, fail_writes=[1])
    put("failed-prove-note", words, EMPTY * 2, "", "fault 5 write\n", 5, fail_notes=[0])
    put("prove-without-head", words, EMPTY, "", REFUSED, 8)
    attest = words + ["--attest", "list"]
    put("failed-prove-fetch", attest, EMPTY, "", "fault 11 failed\n", 11, [("list", b"\n")], fail_fetches=[0], fail_reads=[0])
    put("prove-frame-states-more", words, CUT, "", "fault 3 truncated 1 5\n", 3)


def commit_line(line):
    """The line of the event of a block: its number, its id, its root, and the id of the block before."""
    number, name, root, previous = line
    attributes = [("block_id", name), ("block_num", number), ("state_root_hash", root), ("previous_block_id", previous)]
    event = record(1, "sawtooth/block-commit")
    event += b"".join(record(2, record(1, key) + record(2, value)) for key, value in attributes)
    return f"{name} {event.hex()}\n"


def events():
    # The events of a block are one write. The third block of this stream is on another branch.
    words, stream = ["events", "--type", "sawtooth/block-commit"], "head-lower-first"
    said = [line.split() for line in kept(stream, "stdout").decode().splitlines()]
    blocks = [(line[3], line[4], line[5]) for line in said if line[2] == "committed"]
    before = ["0" * 16] + [name for _, name, _ in blocks]
    lines = [commit_line((*block, previous)) for block, previous in zip(blocks, before)]
    # The first block is that of another case, whose event is from outside.
    assert lines[0].encode() == kept("events-block-commit", "stdout")
    over("failed-events-read", stream, words, "", "fault 4 read\n", 4, fail_reads=[6])
    for write in range(2):
        over(f"failed-events-write-{write}", stream, words, "".join(lines[:write]), "fault 5 write\n", 5, fail_writes=[write])
    behind = {"fail_reads": [7], "fail_writes": [2]} | NO_CALLS
    over("events-makes-no-more-calls", stream, words, "".join(lines), **behind)
    put("failed-events-note", words, EMPTY * 2, "", REFUSED + "fault 5 write\n", 5, fail_notes=[1])
    attest = words + ["--attest", "list"]
    put("failed-events-fetch", attest, EMPTY, "", "fault 11 failed\n", 11, [("list", b"\n")], fail_fetches=[0], fail_reads=[0])
    put("events-frame-states-more", words, CUT, "", "fault 3 truncated 1 5\n", 3)


def checking(root):
    return ["check", "--root", root, "--address", ADDRESS, "--proof", "proof"]


def proof_of(*nodes):
    return [("proof", b"".join(node.hex().encode() + b"\n" for node in nodes))]


EMPTY_NODE = b"\xa2\x61c\xa0\x61v\xf6"


def above(child, count):
    """A node that states so many children and has one, at the byte 1c."""
    return b"\xa2\x61c" + head(5, count) + text("1c") + text(child) + b"\x61v\xf6"


def claims():
    # The file is one call, and the line another.
    root = half(EMPTY_NODE)
    put("check-absent-empty-state", checking(root), EMPTY, "ABSENT\n", files=proof_of(EMPTY_NODE))
    put("failed-check-write", checking(root), EMPTY, "", "fault 5 write\n", 5, proof_of(EMPTY_NODE), fail_writes=[0])
    behind = {"fail_reads": [0], "fail_writes": [1], "fail_notes": [0], "fail_fetches": [1]}
    put("check-makes-no-more-calls", checking(root), EMPTY, "ABSENT\n", files=proof_of(EMPTY_NODE), **behind)
    like("failed-check-rejection", "check-form-garbage", fail_writes=[0])
    put("failed-check-fetch", checking(root), EMPTY, "", "fault 11 failed\n", 11, proof_of(EMPTY_NODE), fail_fetches=[0])
    put("check-proof-missing", checking(root), EMPTY, "", "fault 11 missing\n", 11)
    # One byte more than 64 MiB, all zeros.
    put("check-proof-too-long", checking(root), EMPTY, "", "fault 11 toolong\n", 11, [("proof", b"")], zeros=[0, 67108865])
    # A node has another hash than the root, or than what the node before names.
    other = half(b"another node")
    put("check-hash-at-0", checking(other), b"", "REJECTED 2 0\n", status=1, files=proof_of(EMPTY_NODE))
    first = above(other, 1)
    put("check-hash-at-1", checking(half(first)), b"", "REJECTED 2 1\n", status=1, files=proof_of(first, EMPTY_NODE))


def overstated():
    # Nodes that state more than they have are no encodings, and are rejected by the form though they have the hash.
    for name, node in [
        ("check-form-more-children", above(half(EMPTY_NODE), 2)),
        ("check-form-most-children", b"\xa2\x61c" + head(5, 2**64 - 1)),
        ("check-form-longer-value", b"\xa2\x61c\xa0\x61v" + head(2, 2**64 - 1) + b"\5"),
    ]:
        put(name, checking(half(node)), b"", "REJECTED 3 0\n", status=1, files=proof_of(node, EMPTY_NODE))
    # A list whose batch, and one whose batch's header, states more bytes than there are.
    words, header = ["publish", "--batches", "list"], b"\n" + MOST + b"a"
    put("publish-list-states-more", words, b"", "", "fault 11 badlist\n", 11, [("list", header)])
    put("publish-batch-states-more", words, b"", "", "fault 11 badlist\n", 11, [("list", record(1, header))])


def endings():
    # Each line of a list is one write, and so is a frame.
    receipts = kept("operator-receipts", "stdout").decode().split("\n")
    like("failed-receipts-first", "operator-receipts", fail_writes=[0])
    like("failed-receipts-second", "operator-receipts", receipts[0] + "\n", fail_writes=[1])
    like("failed-status-write", "operator-status", fail_writes=[0])
    like("failed-status-read", "operator-status", stderr="fault 4 read\n", status=4, fail_reads=[0])
    like("failed-publish-frame", "operator-publish", fail_writes=[0])
    # Losses come before the frame: where one cannot be told, no frame is written.
    like("failed-publish-loss", "publish-dependency-failed", fail_notes=[0])
    loss = kept("publish-dependency-failed", "stderr").decode().split("\n")[0]
    like("failed-publish-frame-behind-losses", "publish-dependency-failed", "", kept("publish-dependency-failed", "stderr").decode() + "fault 5 write\n", fail_writes=[0])
    like("failed-publish-second-loss", "publish-dependency-failed", "", loss + "\nfault 5 write\n", fail_notes=[1])
    # So does the line of a refused candidate, which stands behind them.
    like("failed-publish-refusal", "policy-publish-judged-again", "", "batch 0 dropped invalid 0 108\nfault 5 write\n", fail_notes=[1])
    # The list of batches comes before the stream.
    put("publish-list-missing", ["publish", "--batches", "list"], EMPTY, "", "fault 11 missing\n", 11, fail_reads=[0])
    like("failed-publish-fetch", "operator-publish", stderr="fault 11 failed\n", status=11, fail_fetches=[0], fail_reads=[0])
    both = ["publish", "--batches", "list", "--attest", "accepted"]
    files = [("accepted", b"\n"), ("list", b"")]
    put("failed-publish-second-fetch", both, EMPTY, "", "fault 11 failed\n", 11, files, fail_fetches=[1], fail_reads=[0])


def options():
    empty = [("list", b"")]
    none = "head none\n"
    put("attest-in-two-words", ["apply", "--attest", "list"], stdout=none, files=empty)
    put("attest-in-one-word", ["apply", "--attest=list"], stdout=none, files=empty)
    forms = [
        ("state-prefix-in-two-words", ["state", "--prefix", "00ff"]),
        ("state-prefix-in-one-word", ["state", "--prefix=1c", "--attest", "list"]),
        ("state-prefix-last", ["state", "--attest=list", "--prefix", "1c"]),
    ]
    for name, words in forms:
        put(name, words, status=8, files=empty)


def streams():
    # A frame is two writes: its length, and its content. Neither stream nor files are asked for.
    words = ["generate", "--start", "7", "--blocks=2", "--batches", "3"]
    first, second = generator.frames(7, 2, 3, 10)
    put("generate-without-input", words, EMPTY, first + second, fail_reads=[0], fail_fetches=[0], fail_notes=[0])
    put("failed-generate-first", words, EMPTY, "", "fault 5 write\n", 5, fail_writes=[0])
    put("failed-generate-content", words, EMPTY, first[:4], "fault 5 write\n", 5, fail_writes=[1])
    put("failed-generate-second", words, EMPTY, first + second[:4], "fault 5 write\n", 5, fail_writes=[3])


failing()
endings()
forks()
untold()
proofs()
events()
claims()
overstated()
options()
streams()
