"""Makes a list of batches for `sawval publish`: one `BatchList`, signed with the development mark or with a real key.

Usage: python3 -B tools/batches.py [--key HEX | --sign KEYFILE] [--nonce TEXT] FILE BATCH [BATCH ..]

Each BATCH is one argument: its transactions with `;` between them, each of words with spaces between them. What stands
between two `'` or two `"` is part of one word, spaces and `;` too. The words are:

    intkey set NAME VALUE         sets a new name to a number; with `inc` or `dec` for `set` changes one that is there
    xo create GAME                makes a game; with `delete` for `create` takes it away
    xo take GAME SPACE            takes a space, from 1 to 9, of a game
    settings propose KEY VALUE [NONCE]
    settings vote PROPOSAL KEY accept|reject
    identity policy NAME permit|deny KEY [permit|deny KEY ..]
                                  sets a policy: its entries in order, each with 66 hex digits for KEY, or with `*` for all
    identity role NAME POLICY     sets a role to a policy that is there
    names claim NAME              of the family that demo/names.py serves: takes a name that nobody has; with `drop` for
                                  `claim` gives it up
    names give NAME KEY           gives a name of the signer's to another key

FILE `-` is standard output. For each `propose` a line `proposal ID KEY VALUE` is written to standard error. ID is the
PROPOSAL of a vote on it, and depends on KEY, VALUE and NONCE alone.

Options:
--key HEX       the key that signs batches and transactions, 66 hex digits; without it `02` and 64 times `0`
--sign KEYFILE  signs with the private key of this file, 64 hex digits, as Sawtooth 1.x signs (ECDSA on secp256k1 over
                SHA-256); `sawval` then wants an attestation list, which tools/attest.py makes
--nonce TEXT    makes other transactions of the same words. A branch takes no transaction twice, so each list for it
                needs a TEXT of its own; the first needs none.

For example, a list of two batches, a first block that is made of it, and what is said of that block:

    python3 -B tools/batches.py list "intkey set a 5; intkey inc a 2" "xo create g; xo take g 5"
    sawval publish --batches list < /dev/null > block
    sawval apply < block

A value with spaces or `;` in it, within the quotes of the shell:

    python3 -B tools/batches.py list "settings propose some.setting 'one; two'"

Lists of several keys or nonces are joined with `cat`. Words that a family refuses whatever the state end the tool with
status 2 and one line, which counts batches and transactions from 0 as `sawval` does; then nothing is written. So does a
KEYFILE that cannot be read or has no key. Status 1 says that FILE cannot be written.
"""

import argparse
import re
import sys

import counters
from applied import values
from counters import record, sha512
from families import ACCEPT, KEYS, PROPOSALS, PROPOSE, REJECT, THRESHOLD, VOTE, WAY
from families import Transaction, act, is_number, keys_in, last, move, number, policy_address, proposed, role_address
from families import setting_address, sha256, written_batch

KEY = "02" + "0" * 64
LONGEST_NAME = 20
CHOICES = {"accept": ACCEPT, "reject": REJECT}
ALLOWED = "sawtooth.identity.allowed_keys"
POLICY, ROLE = 1, 2
RULINGS = {"permit": 1, "deny": 2}


class Wrong(Exception):
    """What is wrong with the words."""


def demand(holds, wrong):
    if not holds:
        raise Wrong(wrong)


def is_utf8(word):
    """Whether the bytes of a word of the command line are UTF-8."""
    try:
        word.encode()
    except UnicodeEncodeError:
        return False
    return True


def is_key(word):
    return re.fullmatch("[0-9a-f]{66}", word)


# Transactions of each family. What is refused here the family refuses in every state.


def counter(signer, verb, name, value):
    demand(1 <= len(name) <= LONGEST_NAME, f"name {name!r} has {len(name)} characters, of 1 to {LONGEST_NAME}")
    fits = re.fullmatch("[0-9]{1,10}", value) and int(value) <= counters.LIMIT
    demand(fits, f"value {value!r} is no number of up to ten digits from 0 to {counters.LIMIT}")
    own = [counters.address(name)]
    return Transaction("intkey", signer, counters.operation(verb, name, int(value)), own, own)


def game(signer, action, name, space=""):
    plain = name and "," not in name and "|" not in name
    demand(plain, f"name {name!r} of a game is empty or has a comma or a bar")
    demand(action != "take" or space in list("123456789"), f"space {space!r} is no digit from 1 to 9")
    return move(signer, f"{name},{action},{space}")


def propose(signer, _, key, value, nonce=""):
    demand(key != PROPOSALS, f"{PROPOSALS} is written by votes alone")
    demand(key != KEYS or keys_in(value), f"value {value!r} names no key")
    demand(key != THRESHOLD or is_number(value), f"threshold {value!r} is not 1 to 9 digits")
    data = proposed(key, value) + record(3, nonce)
    return act(signer, number(1, PROPOSE) + record(2, data), key)


def vote(signer, _, proposal, key, choice):
    demand(re.fullmatch("[0-9a-f]{64}", proposal), f"proposal {proposal!r} is not 64 hex digits")
    demand(choice in CHOICES, f"vote {choice!r} is neither accept nor reject")
    data = record(1, proposal) + number(2, CHOICES[choice])
    return act(signer, number(1, VOTE) + record(2, data), key)


def identity(signer, kind, item, own, *read):
    """A transaction that sets a policy or a role at its own address, and reads further ones."""
    payload = number(1, kind) + record(2, item)
    return Transaction("sawtooth_identity", signer, payload, [setting_address(ALLOWED), own, *read], [own])


def entry(ruling, key):
    demand(ruling in RULINGS, f"entry {ruling!r} is neither permit nor deny")
    demand(key == "*" or is_key(key), f"key {key!r} is neither * nor 66 hex digits")
    return record(2, number(1, RULINGS[ruling]) + record(2, key))


def policy(signer, _, name, *words):
    demand(name, "a policy has no name")
    demand(len(words) % 2 == 0, f"entry {words[-1]!r} has no key")
    entries = b"".join(map(entry, words[::2], words[1::2]))
    return identity(signer, POLICY, record(1, name) + entries, policy_address(name))


def role(signer, _, name, its_policy):
    demand(name and its_policy, "a role or its policy has no name")
    item = record(1, name) + record(2, its_policy)
    return identity(signer, ROLE, item, role_address(name), policy_address(its_policy))


def name_of(signer, verb, name, key=""):
    demand(len(name.split()) == 1, f"name {name!r} is no word")
    demand(verb != "give" or is_key(key), f"key {key!r} is not 66 hex digits")
    own = [sha512(b"names")[:6] + sha512(name.encode())[:64]]
    return Transaction("names", signer, " ".join([verb, name, key]).rstrip().encode(), own, own)


# What makes a transaction of a family and an action, and the words that it takes.
FORMS = {
    "intkey set": (counter, "NAME VALUE"),
    "intkey inc": (counter, "NAME VALUE"),
    "intkey dec": (counter, "NAME VALUE"),
    "xo create": (game, "GAME"),
    "xo take": (game, "GAME SPACE"),
    "xo delete": (game, "GAME"),
    "settings propose": (propose, "KEY VALUE [NONCE]"),
    "settings vote": (vote, "PROPOSAL KEY accept|reject"),
    "identity policy": (policy, "NAME permit|deny KEY [permit|deny KEY ..]"),
    "identity role": (role, "NAME POLICY"),
    "names claim": (name_of, "NAME"),
    "names give": (name_of, "NAME KEY"),
    "names drop": (name_of, "NAME"),
}


def transaction(signer, words):
    demand(words, "there are no words")
    demand(all(map(is_utf8, words)), "the words are not UTF-8")
    name, rest = " ".join(words[:2]), words[2:]
    demand(name in FORMS, f"{name!r} is none of: {', '.join(FORMS)}")
    make, form = FORMS[name]
    most, least = len(form.split()), len(re.sub(r"\[.*\]", "", form).split())
    most = len(rest) if ".." in form else most
    demand(least <= len(rest) <= most, f"{name} wants {form}, and has {len(rest)} words behind it")
    return make(signer, words[1], *rest)


# Lists.


def parts_of(text):
    """The words of each transaction of a batch."""
    parts, word, quote = [[]], None, ""
    for char in text:
        if quote:
            quote, word = ("", word) if char == quote else (quote, word + char)
        elif char in "'\"":
            quote, word = char, word or ""
        elif char == ";" or char.isspace():
            parts[-1] += [] if word is None else [word]
            parts += [[]] if char == ";" else []
            word = None
        else:
            word = (word or "") + char
    parts[-1] += [] if word is None else [word]
    demand(not quote, f"a {quote} has no second one")
    return parts


def batch(signer, nonce, place, text):
    """The transactions of a batch. The nonce of each is the text of the option, if any, and its place."""
    front, made = f"{nonce}/" if nonce else "", []
    try:
        parts = parts_of(text)
    except Wrong as wrong:
        raise Wrong(f"batch {place}: {wrong}") from None
    for at, words in enumerate(parts):
        try:
            tx = transaction(signer, words)
        except Wrong as wrong:
            raise Wrong(f"batch {place} transaction {at}: {wrong}") from None
        tx.nonce = f"{front}{place}/{at}"
        made.append(tx)
    return made


def proposal_line(tx):
    """What is told of a transaction that proposes, and nothing of any other."""
    if tx.family != "sawtooth_settings" or values(tx.payload, 1) != [PROPOSE]:
        return ""
    (data,) = values(tx.payload, 2)
    return f"proposal {sha256(data)} {last(data, 1)} {last(data, 2)}\n"


def batch_list(key, nonce, texts):
    """The list of these batches, and the lines of its proposals."""
    demand(is_key(key), f"key {key!r} is not 66 hex digits")
    demand(is_utf8(nonce), f"nonce {nonce!r} is not UTF-8")
    batches = [batch(key, nonce, place, text) for place, text in enumerate(texts)]
    lines = "".join(proposal_line(tx) for made in batches for tx in made)
    return b"".join(record(1, written_batch(made)[1]) for made in batches), lines


class Words(argparse.ArgumentParser):
    def error(self, message):
        """Ends the tool with one line in place of several."""
        self.exit(2, f"{message}\n")


def arguments():
    shape = argparse.RawDescriptionHelpFormatter
    parser = Words(usage=argparse.SUPPRESS, description=__doc__, formatter_class=shape, allow_abbrev=False)
    parser.add_argument("--key", help=argparse.SUPPRESS)
    parser.add_argument("--sign", help=argparse.SUPPRESS)
    parser.add_argument("--nonce", default="", help=argparse.SUPPRESS)
    parser.add_argument("file", metavar="FILE", help=argparse.SUPPRESS)
    parser.add_argument("batches", metavar="BATCH", nargs="+", help=argparse.SUPPRESS)
    return parser.parse_args()


def key_of(given):
    """The key that signs; with a real one headers are signed by it."""
    if not given.sign:
        return given.key or KEY
    demand(not given.key, "--key and --sign are not for one list")
    import signatures

    private = signatures.private_key(given.sign)
    WAY["sign"] = lambda _, header: signatures.sign(private, header)
    return signatures.digits_of(private)


def write(name, content):
    """Writes a file, or standard output, whose number is 1."""
    with open(1 if name == "-" else name, "wb", closefd=name != "-") as file:
        file.write(content)


def main():
    given = arguments()
    try:
        content, lines = batch_list(key_of(given), given.nonce, given.batches)
    except Wrong as wrong:
        print(wrong, file=sys.stderr)
        return 2
    try:
        write(given.file, content)
    except OSError as error:
        print(f"{given.file!r} cannot be written: {error.strerror}", file=sys.stderr)
        return 1
    sys.stderr.write(lines)
    return 0


if __name__ == "__main__":
    sys.exit(main())
