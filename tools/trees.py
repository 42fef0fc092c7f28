"""The scripts of predecessor trees, for steps.py.

What is given is computed here by a plain search over all places, and tested against all pairs: each given number is a
pair by overlap, and the closure of what is given is that of all pairs.
"""

from counters import address, sha512


def overlap(one, other):
    return one.startswith(other) or other.startswith(one)


def widest(prefixes, others=()):
    """The prefixes that neither another one nor one of the others covers."""
    kept = []
    for prefix in sorted(prefixes):
        if not any(prefix.startswith(other) for other in [*kept, *others]):
            kept.append(prefix)
    return kept


class Tree:
    """The last writer at each prefix, the readers since, and for each number a bound below which it stands on all."""

    def __init__(self):
        self.writers, self.readers, self.reaches = {}, {}, []

    def met(self, reads, writes):
        """Whom a number that reads and writes at these prefixes meets."""
        both = [*reads, *writes]
        found = {number for at, number in self.writers.items() if any(overlap(at, prefix) for prefix in both)}
        for at, numbers in self.readers.items():
            if any(overlap(at, prefix) for prefix in writes):
                found.update(numbers)
        return found

    def add(self, index, inputs, outputs):
        writes = widest(outputs)
        reads = widest(inputs, writes)
        found = self.met(reads, writes)
        bound = max([self.reaches[number] for number in found if number < len(self.reaches)], default=0)
        given = sorted(number for number in found if number >= bound)
        for prefix in reads:
            alone = any(other.startswith(prefix) for other in writes)
            self.readers[prefix] = [*([] if alone else self.readers.get(prefix, [])), index]
        for prefix in writes:
            self.writers = {at: number for at, number in self.writers.items() if not at.startswith(prefix)}
            self.readers = {at: numbers for at, numbers in self.readers.items() if not at.startswith(prefix)}
            self.writers[prefix] = index
        if len(self.reaches) == index:
            while bound in given:
                bound += 1
            self.reaches.append(bound)
        return given


def closure(edges):
    """For each number all that it stands on."""
    below = {}
    for number in sorted(edges):
        below[number] = set().union(*[{earlier} | below[earlier] for earlier in edges[number]])
    return below


def is_pair(earlier, later):
    (reads, writes), (later_reads, later_writes) = earlier, later
    pairs = [(writes, later_reads), (writes, later_writes), (reads, later_writes)]
    return any(overlap(one, other) for ones, others in pairs for one in ones for other in others)


def tested(entries, given):
    """Ends with a fault where what is given is not as it must be."""
    pairs = {i: [j for j in entries if j < i and is_pair(entries[j], entries[i])] for i in entries}
    assert all(set(given[i]) <= set(pairs[i]) for i in entries)
    assert closure(given) == closure(pairs)


def word(prefixes):
    return "".join("+" + prefix for prefix in prefixes) or "-"


def grown(name, *trees):
    """A script of trees, each a list of inputs and outputs; `new` stands between two."""
    calls, index = [], 0
    for number, entries in enumerate(trees):
        if number:
            calls.append(("new", ""))
            index += 1
        tree, added, given = Tree(), {}, {}
        for inputs, outputs in entries:
            added[index], given[index] = (inputs, outputs), tree.add(index, inputs, outputs)
            calls.append((f"add {word(inputs)} {word(outputs)}", " ".join(map(str, [index, *given[index]]))))
            index += 1
        tested(added, given)
    return "trees", name, calls


A, B = address("a"), address("b")
FAMILY = A[:6]


def drawn(count, seed):
    """Prefixes of few bytes, of all lengths, read and written by so many numbers."""
    for number in range(count):
        digits = sha512(f"{seed} {number}".encode())
        texts = ["".join("a0" if digit < "8" else "a1" for digit in digits[at : at + 6])[: int(digits[at + 6], 16) % 6 * 2] for at in range(0, 40, 10)]
        reads, writes = int(digits[100], 16) % 3, int(digits[101], 16) % 3
        yield texts[:reads], texts[2 : 2 + writes]


def trees():
    """The kind, the name and the calls of each script."""
    yield grown("reader-of-all", [([""], []), ([], [A]), ([""], [])])
    yield grown("writer-of-a-family", [([], [FAMILY]), ([B], [])])
    yield grown("writers-and-a-reader", [([], [A]), ([], [A]), ([A], [])])
    yield grown("readers", [([A], []), ([A], []), ([], [A]), ([A], []), ([], [A])])
    lengths = [A[:length] for length in range(0, 71, 2)]
    yield grown("writers-at-every-length", [([], [prefix]) for prefix in lengths], [([], [prefix]) for prefix in reversed(lengths)])
    yield grown("readers-at-every-length", [([prefix], []) for prefix in lengths] + [([], [A]), ([], [FAMILY])])
    yield grown("readers-below-writers", [entry for prefix in lengths for entry in [([], [prefix]), ([A], []), ([B], [])]])
    yield grown("readers-of-all-that-write", [([""], [address(f"n{number}")]) for number in range(40)])
    yield grown("readers-of-one-that-write-all", [([A], [""]) for number in range(40)])
    yield grown("own-prefixes", [([A, A[:8], A, B], [B, A[:10], A]), ([A[:4]], []), ([], [B]), ([B, B], [B, B])])
    yield grown("drawn", list(drawn(300, "one")))
    yield grown("drawn-twice", list(drawn(60, "two")), list(drawn(60, "three")))
