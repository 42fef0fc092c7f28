"""Makes the scripts of saw_family_steps, saw_plan_steps and saw_state_steps, with the lines that each is to say.

Written apart from the validator: roots, addresses, ids and messages are made here, from the public formats alone, and
the verdicts, numbers and places are written by hand. Nothing comes out of the validator.
Usage: python3 -B tools/steps.py crates
"""

import hashlib
import json
import os
import re

import usage
from counters import address, head, node, record, sha512, text, varint
from families import policy_address, role_address, setting_address
from schedules import schedules
from trees import trees

(FOLDER,) = usage.words(__doc__, 1)
KEY = "02" + "1" * 64
OTHER_KEY = "02" + "2" * 64
NO_BLOCK = "0" * 16
A = address("a")

# The kinds of calls that each program runs, and the blocks that its journals read.
KINDS = {
    "saw_family_steps": ("access", "families", "settings", "requests"),
    "saw_plan_steps": ("plans", "schedules", "trees"),
    "saw_state_steps": ("states", "journal", "blocks", "clashes"),
}
FOLDERS = {kind: f"{FOLDER}/{crate}/data/{kind}" for crate, kinds in KINDS.items() for kind in kinds}


def number(field, value):
    return varint(field << 3) + varint(value) if value else b""


def hexed(data):
    return data.hex() if data else "-"


def put(kind, name, calls):
    """A script of calls, each with the lines that it is to say."""
    with open(f"{FOLDERS[kind]}/{name}.script", "w") as file:
        file.writelines(call + "\n" for call, _ in calls)
    with open(f"{FOLDERS[kind]}/{name}.want", "w") as file:
        file.writelines(line + "\n" for _, lines in calls for line in lines.split("\n") if lines)


# Access.


def change(at, value):
    """A change of a receipt: 1 is a set and 2 a deletion."""
    kind = b"\x18\x02" if value is None else record(2, value) + b"\x18\x01"
    return record(1, record(1, at) + kind)


def receipt(*changes, events=b""):
    return "receipt " + (b"".join(changes) + events + record(4, "id")).hex()


def access():
    ones, twos = "11" * 35, "22" * 35
    old, new = b"old".hex(), b"new".hex()
    declared = f"tx +{ones} +{ones}"
    put("access", "half-declared", [
        (f"base {ones}={old}", ""),
        (declared, ""),
        (f"set {ones}={new} {twos}={new}", "refused at 1"),
        (f"get {ones}", f"values {old}\n" + receipt()),
    ])
    for name, base in [("deletion", f"base {ones}={old}"), ("deletion-of-none", "base")]:
        put("access", name, [
            (base, ""),
            (declared, ""),
            ("get", "values"),
            (f"delete {ones}", "done"),
            (f"get {ones}", "values \n" + receipt(change(ones, None))),
        ])
    low, high = "00" * 35, "ff" * 35
    put("access", "receipt", [
        ("base", ""),
        ("tx + +", ""),
        (f"delete {high}", "done"),
        (f"set {low}={b'v'.hex()}", "done"),
        ("event e", "done\n" + receipt(change(low, b"v"), change(high, None), events=record(2, record(1, "e")))),
    ])
    # What is only an input or only an output, a text that is no address, and the later of two sets.
    put("access", "inputs-and-outputs", [
        (f"base {ones}={old}", ""),
        ("tx +11 +22", ""),
        (f"get {twos}", "refused at 0"),
        (f"get {ones} {ones} {twos}", "refused at 2"),
        (f"get {ones} {ones}", f"values {old} {old}"),
        (f"set {ones}={new}", "refused at 0"),
        (f"delete {twos} {ones}", "refused at 1"),
        (f"delete {ones[1:]}", "refused at 0"),
        (f"set {twos}={old} {twos}={new}", "done\n" + receipt(change(twos, b"new"))),
    ])


# Families.

SETTING = "sawtooth.settings.vote."


def setting(key, value):
    """The bytes under the address of a setting with one entry."""
    return record(1, record(1, key) + record(2, value))


def families(name, family, rows):
    put("families", name, [
        (" ".join([family, hexed(payload)] + [r if r in ("!", ".") else hexed(r) for r in replies]), line)
        for payload, replies, line in rows
    ])


def numbers(name, family, rows):
    families(name, family, [(payload, replies, f"invalid {number}") for payload, replies, number in rows])


SET = b"\xa3\x64Verb\x63set\x64Name\x61a\x65Value\x05"


def counters():
    numbers("counter-reasons", "intkey", [
        (b"\x01", [], 101),
        (b"\xa2dNameaaeValue\x05", [], 102),
        (b"\xa3dVerbcputdNameaaeValue\x05", [], 102),
        (b"\xa2dVerbcseteValue\x05", [], 103),
        (b"\xa2dVerbcsetdNameaa", [], 104),
        (SET, ["!"], 105),
        (b"\xa3dVerbcsetdNameaaeValue\x05", [b"\x01"], 106),
        (b"\xa3dVerbcsetdNameaaeValue\x05", [b"\xa1aa\x07"], 107),
        (b"\xa3dVerbcincdNameaaeValue\x05", [b"\xa1ab\x07"], 108),
        (b"\xa3dVerbcdecdNameaaeValue\x05", [b""], 108),
        (b"\xa3dVerbcincdNameaaeValue\x01", [b"\xa1aa\x1a\xff\xff\xff\xff"], 109),
        (b"\xa3dVerbcdecdNameaaeValue\x05", [b"\xa1aa\x04"], 109),
    ])
    families("counter-steps", "intkey", [
        (SET, [], f"get {A}"),
        (SET, [b""], f"set {A} a1616105"),
    ])


EMPTY_BOARD = "-" * 9


def turn(player):
    return f"P{player}-NEXT"


def won(player):
    return f"P{player}-WIN"


def kept_game(name, board, state, first="", second=""):
    return ",".join([name, board, state, first, second]).encode()


def games():
    numbers("game-reasons", "xo", [
        (b"g,create", [], 201),
        (b"g,create,,", [], 201),
        (b"\xff,create,", [], 201),
        (b",create,", [], 202),
        (b"g|h,create,", [], 202),
        (b"g,play,", [], 203),
        (b"g,take,0", [], 204),
        (b"g,take,12", [], 204),
        (b"g,take,", [], 204),
        (b"g,create,", ["!"], 205),
        (b"g,create,", [b"g"], 206),
        (b"g,create,", [kept_game("f", "--------", turn(1))], 206),
        (b"g,create,", [kept_game("f", EMPTY_BOARD, "P%d" % 1)], 206),
        (b"g,create,", [kept_game("f", EMPTY_BOARD, turn(1)) + b"|" + kept_game("f", EMPTY_BOARD, turn(1))], 206),
        (b"g,create,", [kept_game("g", EMPTY_BOARD, turn(1))], 207),
        (b"g,take,1", [kept_game("f", EMPTY_BOARD, turn(1))], 208),
        (b"g,delete,", [b""], 208),
        (b"g,take,9", [kept_game("g", "XXXOO----", won(1), "K", "K")], 209),
        (b"g,take,9", [kept_game("g", "XXOOOXXOX", "TIE", "K", "K")], 209),
        (b"g,take,1", [kept_game("g", EMPTY_BOARD, turn(1), "L")], 210),
        (b"g,take,2", [kept_game("g", "X--------", turn(2), "K", "L")], 210),
        (b"g,take,1", [kept_game("g", "X--------", turn(2), "K")], 211),
    ])
    at = sha512(b"xo")[:6] + sha512(b"g")[:64]
    games = kept_game("f", EMPTY_BOARD, turn(1)) + b"|" + kept_game("g", EMPTY_BOARD, turn(1))
    families("game-steps", "xo", [
        (b"g,create,", [], f"get {at}"),
        (b"g,create,", [kept_game("f", EMPTY_BOARD, turn(1))], f"set {at} {games.hex()}"),
    ])


def settings():
    keys, threshold, proposals = SETTING + "authorized_keys", SETTING + "approval_threshold", SETTING + "proposals"
    one_key, two_keys, two_votes = setting(keys, "K"), setting(keys, "K,L"), setting(threshold, "2")
    a_to_b = b"\x08\x01\x12\x06\x0a\x01a\x12\x01b"
    of_l = "ClEKQGYyMTQzY2UyNjc5NzgyYjhhZmNmNzczMjAyZTI4NzVkMzQ5ZDc1YjcyMmU0M2M3NWJjOWUyYmU3ZWNkMDRhNGISBgoBYRIBYhoFCgFMEAE="
    of_k = "ClEKQGYyMTQzY2UyNjc5NzgyYjhhZmNmNzczMjAyZTI4NzVkMzQ5ZDc1YjcyMmU0M2M3NWJjOWUyYmU3ZWNkMDRhNGISBgoBYRIBYhoFCgFLEAE="
    vote = b"\x08\x02\x12D\x0a@f2143ce2679782b8afcf773202e2875d349d75b722e43c75bc9e2be7ecd04a4b\x10"

    def proposing(key, value):
        return b"\x08\x01" + record(2, record(1, key) + record(2, value))

    numbers("settings-reasons", "sawtooth_settings", [
        (b"", ["!"], 301),
        (a_to_b, [b"\x0a"], 302),
        (a_to_b, [setting(keys, "L, M")], 303),
        (b"\x0a", [b""], 304),
        (b"\x08\x03\x12\x06\x0a\x01a\x12\x01b", [b""], 305),
        # Of a proposal.
        (b"\x08\x01\x12\x01\x0a", [b""], 306),
        (a_to_b, [b"", setting(threshold, "two")], 302),
        (a_to_b, [b"", b""], 307),
        (proposing(keys, " , "), [b"", b""], 308),
        (proposing(threshold, "2"), [one_key, b""], 309),
        (proposing(proposals, "x"), [one_key, b""], 310),
        (a_to_b, [two_keys, two_votes, setting(proposals, "?")], 302),
        (a_to_b, [two_keys, two_votes, setting(proposals, of_l)], 311),
        # Of a vote.
        (b"\x08\x02\x12\x01\x0a", [b""], 306),
        (vote + b"\x03", [b""], 312),
        (vote + b"\x01", [b"", b""], 313),
        (vote + b"\x02", [two_keys, setting(proposals, of_k), two_votes], 314),
    ])
    families("settings-steps", "sawtooth_settings", [(b"", [], f"get {setting_address(keys)}")])


def entry(kind, key):
    return record(2, number(1, kind) + record(2, key))


def policy(name, *entries):
    return record(1, name) + b"".join(entries)


def role(name, its_policy):
    return record(1, name) + record(2, its_policy)


def identities():
    allowed = "sawtooth.identity.allowed_keys"
    to_all = setting(allowed, "L, K ,")

    def setting_of(kind, item):
        return number(1, kind) + record(2, item)

    sound = entry(1, KEY), entry(2, "*")
    new, of_p = setting_of(1, policy("p", *sound)), setting_of(2, role("a.b.c.d.e", "p"))
    kept = record(1, policy("p", *sound))
    numbers("identity-reasons", "sawtooth_identity", [
        (new, ["!"], 401),
        (new, ["."], 401),
        (new, [b"\x0a"], 402),
        (new, [b""], 403),
        (new, [setting(allowed, "L,M")], 403),
        (new, [setting(allowed + "x", "K")], 403),
        (b"\x0a", [to_all], 404),
        (b"", [to_all], 405),
        (setting_of(3, b""), [to_all], 405),
        # Of a policy.
        (setting_of(1, b"\x0a"), [to_all], 406),
        (setting_of(1, policy("", *sound)), [to_all], 407),
        (setting_of(1, policy("p")), [to_all], 407),
        (setting_of(1, policy("p", *sound, entry(3, "*"))), [to_all], 407),
        (setting_of(1, policy("p", entry(0, KEY))), [to_all], 407),
        (setting_of(1, policy("p", entry(1, KEY[1:]))), [to_all], 407),
        (setting_of(1, policy("p", entry(1, KEY[1:] + "g"))), [to_all], 407),
        (setting_of(1, policy("p", entry(1, "**"))), [to_all], 407),
        (new, [to_all, "!"], 401),
        (new, [to_all, b"\x0a"], 402),
        (new, [to_all, b"", "!"], 401),
        (new, [to_all, b"", ".", "!"], 401),
        # Of a role.
        (setting_of(2, b"\x0a"), [to_all], 408),
        (setting_of(2, role("", "p")), [to_all], 409),
        (setting_of(2, role("a", "")), [to_all], 409),
        (of_p, [to_all, "!"], 401),
        (of_p, [to_all, b"\x0a"], 402),
        (of_p, [to_all, b""], 410),
        (of_p, [to_all, record(1, policy("q", *sound))], 410),
        (of_p, [to_all, kept, "!"], 401),
        (of_p, [to_all, kept, b"\x0a"], 402),
        (of_p, [to_all, kept, b"", "!"], 401),
        (of_p, [to_all, kept, b"", ".", b""], 401),
    ])
    at, role_at = policy_address("p"), role_address("a.b.c.d.e")
    others = record(1, policy("o", *sound)), record(1, policy("q"))
    roles = record(1, role("a.b.c.d", "p")), record(1, role("z", ""))
    families("identity-steps", "sawtooth_identity", [
        (new, [], f"get {setting_address(allowed)}"),
        (new, [to_all], f"get {at}"),
        # In place of the first of its name, or at the end.
        (new, [to_all, b""], f"set {at} {kept.hex()}"),
        (new, [to_all, b"".join(others)], f"set {at} {(others[0] + others[1] + kept).hex()}"),
        (new, [to_all, others[0] + record(1, policy("p")) + others[1]], f"set {at} {(others[0] + kept + others[1]).hex()}"),
        (new, [to_all, record(1, policy("p")) * 2], f"set {at} {(kept + record(1, policy('p'))).hex()}"),
        (new, [to_all, b"", "."], "event identity/update"),
        (new, [to_all, b"", ".", "."], "ok"),
        (of_p, [to_all], f"get {at}"),
        (of_p, [to_all, others[0] + kept], f"get {role_at}"),
        (of_p, [to_all, kept, b"".join(roles)], f"set {role_at} {(roles[0] + roles[1] + record(1, role('a.b.c.d.e', 'p'))).hex()}"),
        (of_p, [to_all, kept, record(1, role("a.b.c.d.e", "q")) + roles[1]], f"set {role_at} {(record(1, role('a.b.c.d.e', 'p')) + roles[1]).hex()}"),
        (of_p, [to_all, kept, b"", "."], "event identity/update"),
        (of_p, [to_all, kept, b"", ".", "."], "ok"),
    ])


def messages():
    again = [
        ("setting", record(1, record(1, "a") + record(2, "b"))),
        ("payload", b"\x08\x01\x12\x01a"),
        ("proposal", b"\x0a\x01a\x12\x01b\x1a\x01c"),
        ("vote", b"\x0a\x01a\x10\x02"),
        # An id, a proposal of a setting, and one vote.
        ("candidates", b"\x0a\x0f\x0a\x01a\x12\x03\x0a\x01b\x1a\x05\x0a\x01c\x10\x01"),
    ]
    at = setting_address("a")
    twice = record(1, record(1, "a") + record(2, "b")) + record(1, record(1, "a") + record(2, "c"))
    put("settings", "settings", [(f"{kind} {hexed(data)}", f" {data.hex()}") for kind, data in again] + [
        (f"address {key}", " " + setting_address(key)) for key in ("sawtooth.settings.vote.proposals", "foo")
    ] + [
        (f"value a {at}={twice.hex()}", " b"),
        (f"value b {at}={twice.hex()}", "none"),
    ])
    put("requests", "requests", [("1000", "ok 1000"), ("1001", "invalid 4")])


# Rules.


def families_listed(text):
    """The families of a text by Python's reader of JSON, in hex digits."""
    try:
        listed = json.loads(text)
    except ValueError:
        return " none"
    if not isinstance(listed, list) or not all(isinstance(one, dict) for one in listed):
        return " none"
    words = [one.get(key) for one in listed for key in ("family", "version")]
    fine = words and all(isinstance(word, str) for word in words)
    return "".join(" " + word.encode().hex() for word in words) if fine else " none"


NUMBER, NAME = r" *([0-9]{1,9}) *", r" *((?! )[^,]*[^, ]) *"
FORMS = {
    "NofX": (rf"NofX *:{NUMBER},{NAME}", lambda n, name: f" {int(n)} {name.encode().hex()}"),
    "XatY": (rf"XatY *:{NAME}, *(-?[0-9]{{1,9}}) *", lambda name, at: f" {name.encode().hex()} {int(at)}"),
    "local": (rf"local *:({NUMBER}(?:,{NUMBER})*)", lambda all_, *_: "".join(f" {int(n)}" for n in all_.split(","))),
}


def rule(part):
    """A rule, or None."""
    for name, (form, told) in FORMS.items():
        found = re.fullmatch(form, part, re.DOTALL)
        if found:
            return f" {name}" + told(*found.groups())
    return None


def rules_listed(text):
    told = [rule(part.strip(" ")) for part in text.split(";") if part.strip(" ")]
    return " none" if None in told else f" {len(told)}" + "".join(told)


def rule_texts():
    one, other = '{"family":"intkey","version":"1.0"}', '{"version":"2.0","family":"xo"}'
    families = [
        "", " ", "null", "[]", "{}", "[{}]", one, f"[{one}]", f" [ {one} ,\n{other}\t] ", f"[{one},1]", f"[{one}", f"[{one}]]",
        f"[[{one}]]", f"[{one},[{other}]]", '[{"family":"sawtooth_settings","version":1}]', '[{"family":"intkey"}]',
        '[{"family":"\\u0069ntkey","version":"1.0"}]', '[{"family":"\\ud83d\\ude00 \\n","version":""}]',
        '[{"family":"xo","version":"1.0","family":"intkey"}]', '[{"family":"intkey","family":1,"version":"1.0"}]',
        '[{"family":"intkey","encoding":[[null,{"a":-0.5e3}],true],"version":"1.0"}]', '[{"family":"intkey","version":"1.0",}]',
    ]
    put("settings", "listed-families", [(f"families 0 {hexed(text.encode())}", families_listed(text)) for text in families] + [
        (f"families 1000000 {text.encode().hex()}", families_listed(" " * 1000000 + text)) for text in (f"[{one}]", "[", f"[{one}]x")
    ])
    blocks = [
        "", ";", " ; ;", "NofX:1,intkey", "NofX : 01 , a", ";NofX:123456789,a b;", "NofX:1234567890,a", "NofX:1,a,b", "NofX:1;intkey",
        "NofX:1", "NofX:,a", "NofX:1,", "NofX:-1,a", "NofX", "nofx:1,a", "\tNofX:1,a", "NofX:1,a\t", "NofX:0,intkey;bad",
        "NofX:0,intkey;XatY:xo,-1; ;local:0", "XatY:xo,-0", "XatY:a:b,-17", "XatY:a:b,- 1", "XatY:,0", "XatY:intkey,--1", "XatY:intkey,-",
        "XatY:intkey,+1", "XatY:intkey,999999999", "XatY:intkey,-999999999", "XatY:intkey,1000000000", "local:007", " local :0, 2 ,1",
        "local:", "local:0,", "local:-1", "local:0;local:0", "local:0 1", "local:999999999", "local:1234567890",
    ]
    put("settings", "listed-rules", [(f"rules 0 {hexed(text.encode())}", rules_listed(text)) for text in blocks] + [
        (f"rules 1000000 {text.encode().hex()}", rules_listed(text)) for text in ("local:1", "x")
    ])


# Plans.


def planned():
    batches = [
        ("known", [("t0", "")]),
        ("b1", [("t1", ""), ("t2", "t1")]),
        ("b2", [("t3", "t1"), ("t4", "there")]),
        ("b3", [("t5", ""), ("there", "")]),
        ("b4", [("t1", "nowhere")]),
        ("b1", [("t6", "")]),
        ("b5", [("t7", "t7")]),
        ("b6", [("t8", ""), ("t9", "t10"), ("t10", "")]),
        ("b7", [("t11", "t5")]),
        ("b3", [("t5", "")]),
        ("b8", [("t12", "t5"), ("t13", "b1")]),
    ]
    calls = [("known known", ""), ("there there", "")]
    for batch, txs in batches:
        calls += [(f"tx {tx} {'+' + other if other else '-'} -", "") for tx, other in txs]
        calls.append((f"batch {batch}", ""))
    calls.append(("precheck", "\n".join([
        "kept 1 2 9 b1 b2 b3",
        "dropped 0 batch",
        "dropped 3 transaction 1",
        "dropped 4 transaction 0",
        "dropped 5 batch",
        "dropped 6 missing 0 t7",
        "dropped 7 missing 1 t10",
        "dropped 8 missing 0 t5",
        "dropped 10 missing 1 b1",
    ])))
    put("plans", "static-rules", calls)


def operation(verb, name, value):
    return head(5, 3) + text("Verb") + text(verb) + text("Name") + text(name) + text("Value") + head(0, value)


def executed():
    set_x, inc_x, inc_y = operation("set", "x", 1), operation("inc", "x", 1), operation("inc", "y", 1)
    batches = [
        [("a0", set_x, "-"), ("a1", inc_y, "-")],
        [("b0", operation("set", "x", 2), "-")],
        [("c0", inc_x, "-")],
        [("d0", inc_x, "+a0")],
        [("e0", inc_x, "+d0")],
    ]
    calls = []
    for txs in batches:
        calls += [(f"tx {name} {other} {payload.hex()}", "") for name, payload, other in txs]
        calls.append(("batch ", ""))
    x = address("x")
    calls.append(("execute", "\n".join([
        " failed 1 invalid 108",
        f" applied {x} a1617802",
        f" applied {x} a1617803",
        " failed 0 invalid 3",
        " failed 0 invalid 3",
    ])))
    put("plans", "execution", calls)


# States.


def kept(name, value):
    return head(5, 1) + text(name) + head(0, value)


def root(entries):
    """The root of a state: bytes by addresses in hex digits."""
    return sha512(node({bytes.fromhex(at): value for at, value in entries.items()}, 0))[:64] if entries else EMPTY


# The empty root: the node with no children and no value.
EMPTY = sha512(b"\xa2\x61c\xa0\x61v\xf6")[:64]


def left_by(counters):
    """The entries of counters."""
    return {address(name): kept(name, value) for name, value in counters.items()}


def counters_root(counters):
    return root(left_by(counters))


def told_and_kept():
    at = {name: address(name) for name in "abc"}
    put("states", "told-is-not-known", [
        ("list +", "listed"),
        (f"told {at['a']}={kept('a', 1).hex()}", f"root {counters_root({'a': 1})} not known"),
        (f"told {at['a']}", f"root {EMPTY} known"),
    ])
    steps = [
        ("a", 1, {"a": 1}),
        ("b", 2, {"a": 1, "b": 2}),
        ("a", 3, {"b": 2, "a": 3}),
        ("c", None, {"a": 3, "b": 2}),
        ("a", None, {"b": 2}),
        ("b", None, {}),
    ]
    calls = []
    for name, value, left in steps:
        word = at[name] + ("" if value is None else "=" + kept(name, value).hex())
        known = "known" if name == "c" or left == {} else "not known"
        calls.append((f"told {word}", f"root {counters_root(left)} {known}"))
        calls.append((f"update {word}", f"root {counters_root(left)}"))
    put("states", "roots-of-counters", calls)


def listed(prefix, entries):
    """A read of what stands under a prefix, in address order."""
    lines = [f"{at} {value.hex()}" for at, value in sorted(entries.items()) if at.startswith(prefix)]
    return f"list +{prefix}", "\n".join(["listed"] + lines)


def prefixes():
    entries, calls = {}, []
    for where, value in [("00" * 35, b""), (address("b"), kept("b", 1)), (address("a"), kept("a", 1))]:
        entries[where] = value
        calls.append((f"update {where}={hexed(value)}", f"root {root(entries)}"))
    assert sorted(entries) == ["00" * 35, address("a"), address("b")] and address("b").startswith("1cf126b5")
    calls += [listed(prefix, entries) for prefix in ["", "00", "1cf126", "1cf126b5", "1d"]]
    put("states", "entries-under-a-prefix", calls)


def numbered(count, at):
    """The entries that `many` sets."""
    return {address(str(number)): number.to_bytes(4, "big") for number in range(at, at + count)}


def several_workers():
    first, both = numbered(300, 0), {**numbered(300, 0), **numbered(300, 150)}
    assert len(first) == 300 and len(both) == 450
    calls = []
    for workers in (1, 2, 8):
        calls += [
            (f"workers {workers}", ""),
            (f"from {EMPTY}", ""),
            ("list +", "listed"),
            ("many 300 0", f"root {root(first)}"),
            ("many 300 150", f"root {root(both)}"),
        ]
    put("states", "several-workers", calls + [listed("1cf126a5", both), listed("", both)])


def set_to(name, value):
    return f"{address(name)}={kept(name, value).hex()}"


def fork():
    one, left, right = {"a": 1, "b": 1}, {"a": 2, "b": 1, "c": 3}, {"a": 1}
    roots = [counters_root(counters) for counters in (one, left, right)]
    calls = [
        (f"update {set_to('a', 1)} {set_to('b', 1)}", f"root {roots[0]}"),
        (f"update {set_to('a', 2)} {set_to('c', 3)}", f"root {roots[1]}"),
        (f"from {roots[0]}", ""),
        (f"update {address('b')}", f"root {roots[2]}"),
        listed("", left_by(right)),
    ]
    for at, counters in [(roots[0], one), (roots[1], left), (EMPTY, {}), (roots[2], right)]:
        calls += [(f"from {at}", ""), listed("", left_by(counters)), listed(address("b"), left_by(counters))]
    calls += [
        (f"from {roots[1]}", ""),
        (f"told {address('a')} {address('b')}", f"root {counters_root({'c': 3})} not known"),
        (f"told {set_to('a', 1)} {address('c')}", f"root {roots[0]} known"),
    ]
    put("states", "fork", calls)


def same_value():
    counters = {"a": 1, "b": 2}
    same = f"root {counters_root(counters)}"
    put("states", "same-value", [
        (f"update {address('a')}", f"root {EMPTY}"),
        (f"update {set_to('a', 1)} {set_to('b', 2)}", same),
        (f"told {set_to('a', 1)}", f"{same} known"),
        (f"update {set_to('a', 1)}", same),
        (f"update {set_to('b', 2)} {set_to('a', 1)}", same),
        (f"update {address('c')}", same),
        (f"update {address('c')} {set_to('b', 2)}", same),
        ("update", same),
        listed("", left_by(counters)),
    ])


def several_changes():
    assert address("a") < address("c") < address("b")
    put("states", "several-changes", [
        (f"told {set_to('b', 1)} {set_to('a', 1)}", f"root {counters_root({'a': 1, 'b': 1})} not known"),
        (f"update {set_to('b', 1)} {set_to('c', 1)} {set_to('a', 1)}", f"root {counters_root({'a': 1, 'b': 1, 'c': 1})}"),
        # Of two changes of one address the last counts.
        (f"update {set_to('a', 2)} {address('b')} {address('a')}", f"root {counters_root({'c': 1})}"),
        listed("", left_by({"c": 1})),
        (f"update {address('b')} {set_to('a', 2)} {address('c')} {set_to('b', 3)}", f"root {counters_root({'a': 2, 'b': 3})}"),
        listed("", left_by({"a": 2, "b": 3})),
        (f"update {set_to('a', 5)} {set_to('b', 6)} {set_to('a', 2)} {set_to('b', 3)}", f"root {counters_root({'a': 2, 'b': 3})}"),
        (f"told {set_to('c', 1)} {address('c')} {address('b')} {address('a')}", f"root {EMPTY} known"),
    ])


def states():
    told_and_kept()
    prefixes()
    several_workers()
    fork()
    same_value()
    several_changes()


# Blocks.


def mark(key, message):
    return sha512(key.encode() + message)


def transaction(payload, family="intkey", at="1cf126"):
    header = record(1, KEY) + record(3, family) + record(4, "1.0") + record(5, at) + record(7, at)
    header += record(9, sha512(payload)) + record(10, KEY)
    return mark(KEY, header), record(1, header) + record(2, mark(KEY, header)) + record(3, payload)


def batch(payloads):
    made = [transaction(*payload) if isinstance(payload, tuple) else transaction(payload) for payload in payloads]
    header = record(1, KEY) + b"".join(record(2, name) for name, _ in made)
    return mark(KEY, header), record(1, header) + record(2, mark(KEY, header)) + b"".join(record(3, t) for _, t in made)


# What an answer is besides a refusal.
WORDS = ("committed", "stored", "full", "collision")


class Block:
    def __init__(self, name, previous, number, counters, batches, signer=KEY, consensus=b"Devmode", entries=None):
        made = [batch(payloads) for payloads in batches]
        self.entries = left_by(counters) if entries is None else entries
        header = (b"\x08" + varint(number) if number else b"") + record(2, previous) + record(3, signer)
        header += b"".join(record(4, i) for i, _ in made) + record(5, consensus) + record(6, root(self.entries))
        self.id, self.name, self.number, self.root = mark(signer, header), name, number, root(self.entries)
        with open(f"{FOLDERS['blocks']}/{name}.block", "wb") as file:
            file.write(record(1, header) + record(2, self.id) + b"".join(record(3, b) for _, b in made))

    def accept(self, line):
        return f"accept {self.name}.block", line if line in WORDS else f"block 0 refused {line}"

    def head(self):
        return "head", f"head {self.number} {self.id} {self.root}"


SETS = {name: operation("set", name, 1) for name in "abc"}
SET_A_TO_2 = operation("set", "a", 2)


def first(name="first", **other):
    return Block(name, NO_BLOCK, **{"number": 0, "counters": {"a": 1}, "batches": [[SETS["a"]]], "consensus": b"", **other})


def child(name, of, **other):
    return Block(name, of.id, **{"number": 1, "counters": {"a": 1, "b": 1}, "batches": [[SETS["b"]]], **other})


def grandchild(name, of, **other):
    return child(name, of, **{"number": 2, "batches": [], **other})


def receipt_of(payload, name):
    """The receipt of the transaction that sets the counter of this name to 1."""
    return (change(address(name), kept(name, 1)) + record(4, transaction(payload)[0])).hex()


def verdicts():
    genesis = first()
    second = child("child", genesis)
    third = grandchild("grandchild", second)
    other, misnumbered = first("other-first", signer=OTHER_KEY), first("misnumbered", number=3)
    put("journal", "judged-by-those-before", [
        ("limit 10", ""),
        misnumbered.accept("11 BlockNumber 3 0"),
        second.accept("10 PreviousUnknown"),
        genesis.accept("committed"),
        genesis.accept("8 Known"),
        other.accept("9 GenesisAgain"),
        third.accept("10 PreviousUnknown"),
        second.accept("committed"),
        third.accept("committed"),
        second.accept("8 Known"),
        ("blocks", "blocks 3"),
    ])
    put("journal", "first-fault-of-a-child", [
        ("limit 10", ""),
        genesis.accept("committed"),
        child("wrong-number", genesis, number=5, consensus=b"").accept("11 BlockNumber 5 1"),
        child("largest-number", genesis, number=2**64 - 1).accept("11 BlockNumber 18446744073709551615 1"),
        child("wrong-consensus", genesis, consensus=b"Devmod", batches=[[SETS["a"]]]).accept("12 Consensus"),
        child("batch-again", genesis, batches=[[SETS["b"]], [SETS["a"]]]).accept("13 Static 1 1"),
        child("transaction-again", genesis, batches=[[SET_A_TO_2], [SETS["b"], SETS["a"]]]).accept("13 Static 1 2 1"),
        child("invalid", genesis, batches=[[SETS["b"]], [SETS["c"], SET_A_TO_2]]).accept("14 BatchInvalid 1 1 107"),
        child("longer-consensus", genesis, consensus=b"Devmode and more").accept("committed"),
        ("blocks", "blocks 2"),
    ])
    wrong_root = first("wrong-root", counters={})
    with open(f"{FOLDERS['blocks']}/no.block", "wb") as file:
        file.write(b"\x0b")
    pair = child("pair", genesis, batches=[[SETS["b"], SETS["c"]]], counters={"a": 1, "b": 1, "c": 1})
    put("journal", "receipts", [
        ("limit 10", ""),
        genesis.accept("committed"),
        ("receipts", f"batch {batch([SETS['a']])[0]} {receipt_of(SETS['a'], 'a')}"),
        pair.accept("committed"),
        ("receipts", f"batch {batch([SETS['b'], SETS['c']])[0]} {receipt_of(SETS['b'], 'b')} {receipt_of(SETS['c'], 'c')}"),
    ])
    put("journal", "no-head", [
        ("limit 10", ""),
        wrong_root.accept(f"15 Root {genesis.root}"),
        ("accept no.block", "block 0 refused 1 Undecodable"),
        ("head", "head none"),
        ("parent", "parent none"),
    ])
    faulty = grandchild("faulty", second, consensus=b"")
    put("journal", "full", [
        ("limit 2", ""),
        genesis.accept("committed"),
        second.accept("committed"),
        third.accept("full"),
        faulty.accept("12 Consensus"),
        second.accept("8 Known"),
        ("blocks", "blocks 2"),
        second.head(),
    ])


def branches():
    genesis = first()
    weights = sorted((KEY, OTHER_KEY), key=lambda key: hashlib.sha256((key + genesis.id).encode()).hexdigest())
    low, high = weights
    lower = child("lower", genesis, signer=low, batches=[[SETS["c"]]], counters={"a": 1, "c": 1})
    higher = child("higher", genesis, signer=high)
    same = child("same-signer", genesis, signer=low)
    last = grandchild("last", higher, signer=OTHER_KEY)
    weight = lambda key, block: hashlib.sha256((key + block.id).encode()).hexdigest()  # noqa: E731
    assert weight(low, genesis) < weight(OTHER_KEY, higher)
    for name, end, order in [
        ("lower-first", lower, [(lower, "committed"), (higher, "stored")]),
        ("lower-second", lower, [(higher, "committed"), (lower, "committed")]),
        ("first-of-a-signer", lower, [(lower, "committed"), (same, "stored")]),
        ("other-of-a-signer", same, [(same, "committed"), (lower, "stored")]),
    ]:
        calls = [("limit 10", ""), genesis.accept("committed")]
        put("journal", name, calls + [block.accept(line) for block, line in order] + [end.head()])
    line = {name: f"{address(name)} {kept(name, 1).hex()}" for name in "abc"}
    ids = [(batch([SETS[name]])[0], transaction(SETS[name])[0]) for name in "abc"]
    words = "known " + " ".join(f"{b} {t}" for b, t in ids)

    def known(*flags):
        return words, "known" + "".join(f" {f} 0 0 {f}" for f in flags)

    put("journal", "longer-branch", [
        ("limit 10", ""),
        ("parent", "parent none"),
        known(0, 0, 0),
        genesis.accept("committed"),
        known(1, 0, 0),
        lower.accept("committed"),
        higher.accept("stored"),
        known(1, 0, 1),
        ("list +", f"listed\n{line['a']}\n{line['c']}"),
        ("parent", f"parent 1 {lower.id} {lower.root}"),
        last.accept("committed"),
        known(1, 1, 0),
        ("list +", f"listed\n{line['a']}\n{line['b']}"),
        last.head(),
    ])


def failing():
    """Blocks for an external processor that puts payloads behind what stands at an address, by three steps each, and fails
    at every one of them in turn."""
    first_at, second_at = (sha512(b"demo")[:6] + sha512(name)[:64] for name in (b"first", b"second"))

    def demo(payload, at):
        return payload, "demo", at

    genesis = first("three-demo", batches=[[demo(b"one", first_at)], [demo(b"two", second_at), demo(b"three", first_at)]],
                    entries={first_at: b"onethree", second_at: b"two"})
    second = child("fourth-demo", genesis, batches=[[demo(b"four", second_at)]],
                   entries={first_at: b"onethree", second_at: b"twofour"})
    wrong = child("wrong-demo", genesis, batches=[[demo(b"five", second_at)]], entries={})
    put("journal", "failing-steps", [
        ("limit 10", ""),
        (f"failing {genesis.name}.block", "failed 9\ncommitted"),
        genesis.head(),
        listed("", genesis.entries),
        (f"failing {wrong.name}.block", f"failed 3\nblock 0 refused 15 Root {root({first_at: b'onethree', second_at: b'twofive'})}"),
        genesis.head(),
        (f"failing {second.name}.block", "failed 3\ncommitted"),
        second.head(),
        listed("", second.entries),
        ("blocks", "blocks 2"),
    ])


# Clashes: journals whose hash of a node is the first byte of SHA-512, and zeros.


def have_clash(entries):
    """Whether two different nodes of a map have one such hash."""
    met = set()

    def one_byte(encoding):
        met.add(encoding)
        return sha512(encoding)[:2] + "0" * 62

    one_byte(node(entries, 0, one_byte))
    return len({sha512(encoding)[:2] for encoding in met}) < len(met)


def clashes():
    counters = {f"n{number}": 1 for number in range(30)}
    assert have_clash({bytes.fromhex(at): value for at, value in left_by(counters).items()})
    block = first("thirty-names", counters=counters, batches=[[operation("set", name, 1) for name in counters]])
    put("clashes", "thirty-names", [
        ("limit 10", ""),
        block.accept("collision"),
        ("blocks", "blocks 0"),
        ("head", "head none"),
        ("parent", "parent none"),
    ])
    # The block has no fault.
    put("journal", "thirty-names-without-clash", [("limit 10", ""), block.accept("committed"), block.head()])


def main():
    for folder in FOLDERS.values():
        os.makedirs(folder, exist_ok=True)
    access()
    counters()
    games()
    settings()
    identities()
    messages()
    rule_texts()
    planned()
    executed()
    for script in [*schedules(), *trees()]:
        put(*script)
    states()
    verdicts()
    branches()
    failing()
    clashes()


main()
