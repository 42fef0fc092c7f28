"""The scripts of schedules, for steps.py.

What each is to say is written by hand, but for the results of the longest plan: those are of running its transactions
one after another.
"""

from counters import LIMIT, address, head, operation, sha512, text


def counting(name, verb, counter, value, dependency=""):
    """A counter transaction that declares the one address that it reads and writes."""
    at, other = address(counter), f"+{dependency}" if dependency else "-"
    return f"family intkey {name} +{at} +{at} {other} {operation(verb, counter, value).hex()}"


GAME = sha512(b"xo")[:6] + sha512(b"g")[:64]
FIRST_PLAYER = 1
NEW_GAME = f"g,---------,P{FIRST_PLAYER}-NEXT,,".encode().hex()


def playing(name, payload):
    """A transaction on the game g."""
    return f"family xo {name} +{GAME} +{GAME} - {payload.encode().hex()}"


def batched(*batches):
    """The lines of batches, each of the lines of its transactions."""
    calls = []
    for number, txs in enumerate(batches):
        calls += [(line, "") for line in txs] + [(f"batch batch{number}", "")]
    return calls


def place(what):
    """The address of a counter, or an address as it is."""
    return what if len(what) == 70 else address(what)


def content(what, value):
    """What is kept of a counter, or bytes in hex digits as they are."""
    return value if isinstance(value, str) else (head(5, 1) + text(what) + head(0, value)).hex()


def job(index, attempt, *view, failed=False):
    """What a take says. The view is of counters or addresses, each with who changed it and what is there."""
    entries = sorted(f"{place(what)} {maker} {content(what, value)}" for what, maker, value in view)
    return "take", " ".join(["job", str(index), str(attempt), "failed" if failed else "sound"] + entries)


NO_JOB = ("take", "none")


def accepted(index, attempt):
    return f"finish {index} {attempt}", "accepted"


def stale(index, attempt):
    return f"again {index} {attempt}", "stale"


def applied(*outcomes):
    """The line of an applied batch, of counters or addresses with what is there."""
    return " applied" + "".join(f" {place(what)} {content(what, value)}" for what, value in outcomes)


def failed(t, reason):
    return f" failed {t} invalid {reason}"


def steps_of(words):
    """The line of steps: takes, finishes and returns, with the two numbers of the ticket."""
    names = {"t": "take", "f": "finish", "b": "back"}
    return "steps", " ".join(["steps"] + [f"{names[word[0]]}:{word[1:]}" for word in words.split()])


def scheduled(name, plan, calls, results):
    """A script of a schedule that the calls finish, with the lines of its results."""
    ending = [("finished", "yes"), NO_JOB, ("results", "\n".join(results))]
    return "schedules", name, plan + [("schedule", "")] + calls + ending


# b sees what a0 did until a fails by its second member.
UNDONE = batched(
    [counting("a0", "set", "x", 1), counting("a1", "inc", "y", 1)],
    [counting("b0", "set", "x", 2)],
    [counting("c0", "inc", "x", 1)],
)
UNDONE_RESULTS = [failed(1, 108), applied(("x", 2)), applied(("x", 3))]


def reruns():
    until_failed = [
        job(0, 0), job(1, 0), NO_JOB, accepted(0, 0),
        job(2, 0, ("x", 0, 1)), accepted(2, 0), NO_JOB, ("finished", "no"), ("results", "open"),
        accepted(1, 0), stale(2, 0), job(2, 1), NO_JOB,
    ]
    yield scheduled("failed-batch-is-undone", UNDONE, until_failed + [
        accepted(2, 1), job(3, 0, ("x", 2, 2)), NO_JOB, ("finished", "no"), accepted(3, 0), stale(3, 0),
        steps_of("t0:0 t1:0 f0:0 t2:0 f2:0 f1:0 t2:1 f2:1 t3:0 f3:0"),
    ], UNDONE_RESULTS)
    yield scheduled("later-member-first", UNDONE, [
        job(0, 0), job(1, 0), ("back 0 0", "back"), accepted(1, 0), ("finished", "no"), job(0, 1), NO_JOB,
        accepted(0, 1), job(2, 0), accepted(2, 0), job(3, 0, ("x", 2, 2)), accepted(3, 0),
        steps_of("t0:0 t1:0 b0:0 f1:0 t0:1 f0:1 t2:0 f2:0 t3:0 f3:0"),
    ], UNDONE_RESULTS)
    # The same where a is valid: b fails, and c sees what a did.
    stays = batched(
        [counting("a0", "set", "x", 1), counting("a1", "set", "y", 1)],
        [counting("b0", "set", "x", 2)],
        [counting("c0", "inc", "x", 1)],
    )
    yield scheduled("valid-batch-stays", stays, [
        job(0, 0), job(1, 0), accepted(0, 0), job(2, 0, ("x", 0, 1)), accepted(2, 0), NO_JOB,
        accepted(1, 0), job(3, 0, ("x", 0, 1)), accepted(3, 0),
    ], [applied(("x", 1), ("y", 1)), failed(0, 107), applied(("x", 2))])
    # What b read is no longer there.
    yield scheduled("older-view-is-foreign", UNDONE, until_failed + [
        ("as 2 1 2 0", f"foreign read {address('x')}"), ("as 2 1 2 0", "stale"), job(2, 2),
        ("as 2 2 2 1", "accepted"), job(3, 0, ("x", 2, 2)), accepted(3, 0),
        steps_of("t0:0 t1:0 f0:0 t2:0 f2:0 f1:0 t2:1 f2:1 t2:2 f2:2 t3:0 f3:0"),
    ], UNDONE_RESULTS)


def given_back(calls, number):
    """The calls in which the job of the take of this number, counted from 1, is given back and taken again."""
    made, takes, again = [], 0, None
    for call, said in calls:
        words = said.split() if call == "take" else call.split()
        index = words[1] if len(words) > 1 else None
        more = int(again is not None and index == again)
        if call == "take" and index:
            takes += 1
            attempt = int(words[2]) + more
            made.append((call, " ".join([*words[:2], str(attempt), *words[3:]])))
            if takes == number:
                made += [(f"back {index} {attempt}", "back"), (call, " ".join([*words[:2], str(attempt + 1), *words[3:]]))]
                again = index
        elif index:
            made.append((f"{words[0]} {index} {int(words[2]) + more}", said))
        else:
            made.append((call, said))
    return made


def returns():
    # Whichever job of the undone plan is given back, the results are the same.
    calls = [
        job(0, 0), job(1, 0), NO_JOB, accepted(0, 0), job(2, 0, ("x", 0, 1)), accepted(2, 0), NO_JOB,
        accepted(1, 0), stale(2, 0), job(2, 1), NO_JOB, accepted(2, 1), job(3, 0, ("x", 2, 2)), NO_JOB, accepted(3, 0),
    ]
    for number in range(1, 6):
        yield scheduled(f"given-back-at-take-{number}", UNDONE, given_back(calls, number), UNDONE_RESULTS)


def foreign():
    plan = batched(
        [counting("a0", "set", "x", 1)], [counting("b0", "set", "y", 1)], [counting("c0", "inc", "x", 1)],
    )
    yield scheduled("another-transaction-is-foreign", plan, [
        job(0, 0), job(1, 0), NO_JOB, ("as 0 0 1 0", "foreign transaction"), ("as 0 0 1 0", "stale"), stale(0, 0),
        job(0, 1), NO_JOB, ("back 0 0", "stale"), ("as 0 1 0 0", "accepted"), stale(0, 1), accepted(1, 0),
        job(2, 0, ("x", 0, 1)), accepted(2, 0), steps_of("t0:0 t1:0 f0:0 t0:1 f0:1 f1:0 t2:0 f2:0"),
    ], [applied(("x", 1)), applied(("y", 1)), applied(("x", 2))])
    # The same transaction twice: what one read of the base the other one sees changed. Other values and other makers.
    twice = counting("b0", "inc", "x", 1)
    plan = batched(
        [counting("a0", "set", "x", 1)], [counting("a1", "inc", "x", 9), counting("a2", "inc", "y", 1)],
        [twice], [twice], [counting("d0", "set", "z", 1)], [counting("d0", "set", "z", 1)],
    )
    at = address("x")
    yield scheduled("other-reads-are-foreign", plan, [
        job(0, 0), job(2, 0), job(5, 0), NO_JOB, accepted(5, 0), job(6, 0, ("z", 5, 1)),
        ("as 6 0 5 0", f"foreign read {address('z')}"), job(6, 1, ("z", 5, 1)), accepted(6, 1),
        accepted(0, 0), job(1, 0, ("x", 0, 1)), accepted(1, 0),
        job(3, 0, ("x", 1, 10)), accepted(3, 0), job(4, 0, ("x", 3, 11)), ("as 4 0 3 0", f"foreign read {at}"),
        job(4, 1, ("x", 3, 11)), accepted(4, 1), accepted(2, 0),
        job(3, 1, ("x", 0, 1)), ("as 3 1 3 0", f"foreign read {at}"), job(3, 2, ("x", 0, 1)), accepted(3, 2),
        job(4, 2, ("x", 3, 2)), ("as 4 2 4 1", f"foreign read {at}"), job(4, 3, ("x", 3, 2)), accepted(4, 3),
    ], [applied(("x", 1)), failed(1, 108), applied(("x", 2)), applied(("x", 3)), applied(("z", 1)), failed(0, 107)])


def dependencies():
    # Batches without transactions stand first, between others and last.
    at = address("w")
    plan = batched(
        [], [counting("d0", "inc", "z", 1)], [], [counting("d1", "set", "w", 1, "d0")],
        [f"family none d2 +{at} +{at} +d1 -"], ["family intkey d3 +zz - +d1 -"],
        [counting("d4", "set", "v", 1, "nowhere")], [],
    )
    yield scheduled("failed-dependency", plan, [
        job(0, 0), job(4, 0), NO_JOB, ("finished", "no"), accepted(0, 0), job(1, 0, failed=True), NO_JOB,
        accepted(4, 0), accepted(1, 0), job(2, 0, failed=True), job(3, 0, failed=True), NO_JOB,
        accepted(3, 0), ("finished", "no"), accepted(2, 0),
    ], [
        applied(), failed(0, 108), applied(), failed(0, 3), failed(0, 2), failed(0, 1), applied(("v", 1)), applied(),
    ])
    # The same transaction before and after the one that it names: the first one's result does not fit the other.
    twice = counting("t0", "set", "w", 1, "d0")
    yield scheduled("result-without-its-dependency", batched([twice], [counting("d0", "inc", "z", 1)], [twice]), [
        job(0, 0), job(1, 0), NO_JOB, accepted(1, 0), accepted(0, 0), job(2, 0, ("w", 0, 1), failed=True),
        ("as 2 0 0 0", "foreign transaction"), job(2, 1, ("w", 0, 1), failed=True), accepted(2, 1),
    ], [applied(("w", 1)), failed(0, 108), failed(0, 3)])
    yield scheduled("no-batches", [], [("finished", "yes"), steps_of("")], [])
    yield scheduled("no-transactions", batched([], []), [("finished", "yes")], [applied(), applied()])


def orders():
    plan = batched(*[[counting(f"{name}0", "set", name, 1)] for name in "xyz"])
    results = [applied((name, 1)) for name in "xyz"]
    yield scheduled("last-first", plan, [
        job(0, 0), job(1, 0), job(2, 0), NO_JOB, accepted(2, 0), accepted(1, 0), ("finished", "no"),
        ("results", "open"), accepted(0, 0), steps_of("t0:0 t1:0 t2:0 f2:0 f1:0 f0:0"),
    ], results)
    yield scheduled("given-back", plan, [
        ("back 0 0", "stale"), job(0, 0), ("back 0 0", "back"), ("back 0 0", "stale"), stale(0, 0), job(0, 1),
        job(1, 0), ("back 0 0", "stale"), ("back 0 2", "stale"), ("back 1 0", "back"), job(1, 1), job(2, 0),
        # Numbers that no transaction has, and attempts that were not begun.
        ("back 3 0", "stale"), ("as 3 0 0 1", "stale"), ("as 4294967295 0 0 1", "stale"), ("as 0 2 0 1", "stale"),
        accepted(0, 1), ("back 0 1", "stale"), accepted(1, 1), accepted(2, 0),
        steps_of("t0:0 b0:0 t0:1 t1:0 b1:0 t1:1 t2:0 f0:1 f1:1 f2:0"),
    ], results)
    # Behind an invalid member nothing of its batch is taken; what runs may still end, until the batch has failed.
    plan = batched(
        [counting("m0", "set", "p", 1), counting("m1", "inc", "q", 1), counting("m2", "set", "r", 1)],
        [counting(f"n{name}", "inc" if name == "t" else "set", name, 1) for name in "stuvw"],
    )
    yield scheduled("behind-an-invalid-member", plan, [
        job(0, 0), job(1, 0), accepted(1, 0), job(3, 0), job(4, 0), job(5, 0), job(6, 0), accepted(4, 0), NO_JOB,
        accepted(5, 0), accepted(0, 0), ("finished", "no"), accepted(3, 0), stale(6, 0), ("back 6 0", "stale"),
    ], [failed(1, 108), failed(1, 108)])


def views():
    inputs = ["+1cf126", "+", f"+{address('a')[:8]}+{address('a')}+5b", "+1cf127+00", "+ff+xx"]
    last = f"+{address('z')} - {operation('set', 'z', 1).hex()}"
    plan = batched(
        [counting("a0", "set", "a", 1)], [counting("b0", "set", "b", 2)], [playing("g0", "g,create,")],
        *[[f"family intkey r{number} {texts} {last}"] for number, texts in enumerate(inputs)],
    )
    a, b, g, z = ("a", 0, 1), ("b", 1, 2), (GAME, 2, NEW_GAME), ("z", 3, 1)
    assert address("b")[:8] != address("a")[:8] and GAME.startswith("5b")
    yield scheduled("wide-inputs", plan, [
        job(0, 0), job(1, 0), job(2, 0), NO_JOB, accepted(2, 0), accepted(1, 0), accepted(0, 0),
        job(3, 0, a, b), accepted(3, 0), job(4, 0, a, b, g, z), accepted(4, 0), job(5, 0, a, g), accepted(5, 0),
        job(6, 0), accepted(6, 0), job(7, 0), accepted(7, 0),
    ], [
        applied(("a", 1)), applied(("b", 2)), applied((GAME, NEW_GAME)),
        applied(("z", 1)), failed(0, 107), failed(0, 105), failed(0, 105), failed(0, 1),
    ])
    acts = ["create", "delete", "delete", "create"]
    yield scheduled("deletion", batched(*[[playing(f"g{t}", f"g,{act},")] for t, act in enumerate(acts)]), [
        job(0, 0), accepted(0, 0), job(1, 0, (GAME, 0, NEW_GAME)), accepted(1, 0),
        job(2, 0, (GAME, 1, "deleted")), accepted(2, 0), job(3, 0, (GAME, 1, "deleted")), accepted(3, 0),
    ], [applied((GAME, NEW_GAME)), applied((GAME, "deleted")), failed(0, 208), applied((GAME, NEW_GAME))])


def after(old, verb, value):
    """What a counter transaction makes of a value, and why it is invalid where it is."""
    if verb == "set":
        return value, 107 if old is not None else None
    if old is None:
        return old, 108
    made = old + value if verb == "inc" else old - value
    return made, None if 0 <= made <= LIMIT else 109


def serial(batches):
    """The results of batches of counter transactions, one after another."""
    counters, lost, lines = {}, set(), []
    for txs in batches:
        tried, made, line = dict(counters), [], None
        for t, (_, verb, name, value, other) in enumerate(txs):
            value, reason = after(tried.get(name), verb, value)
            if other in lost or reason:
                line = failed(t, 3 if other in lost else reason)
                break
            tried[name] = value
            made.append((name, value))
        if line:
            lost |= {tx[0] for tx in txs}
        else:
            counters, line = tried, applied(*made)
        lines.append(line)
    return lines


def drawn(count, names, size):
    """Batches of counter transactions, by the digits of hashes. The first ones set each name."""
    txs = []
    for number in range(count):
        digits = int(sha512(f"tx {number}".encode())[:16], 16)
        verb = "set" if number < names or digits % 12 == 0 else "dec" if digits % 4 == 1 else "inc"
        name = number if number < names else digits // 100 % names
        other = f"t{number - 7}" if digits % 11 == 0 and number > 7 else ""
        txs.append((f"t{number}", verb, f"n{name}", digits // 10000 % 5 + 1, other))
    return [txs[at : at + size] for at in range(0, count, size)]


def three_hundred():
    batches = drawn(300, 20, 3)
    lines = serial(batches)
    plan = batched(*[[counting(*tx) for tx in txs] for txs in batches])
    for name, call in [("three-hundred", "execute"), ("three-hundred-by-three", "execute 3"), ("three-hundred-by-eight", "execute 8")]:
        yield "plans", name, plan + [(call, "\n".join(lines))]
    for name, call in [("one-at-a-time", "drain"), ("five-at-once", "drain 5"), ("all-at-once", "drain 300")]:
        yield scheduled(f"three-hundred-{name}", plan, [("finished", "no"), (call, "")], lines)


def schedules():
    """The kind, the name and the calls of each script."""
    for scripts in (reruns, returns, foreign, dependencies, orders, views, three_hundred):
        yield from scripts()
