"""passes.py GIB: four passes that users write, on 100,000 nodes each: by `plain`, and by `run` with one and with four workers.

Substitution by key, numbering of a document, building a k-d tree, and a quadtree made by inserts. Every result is compared with the due one, which
is made here. Printed are processor time, time that passed and the peak of memory, each the least of some runs (of the peaks the greatest).
"""

import os
import random
import sys
import tempfile
from typing import NamedTuple

import inputs
from measure import RUNS, Missed, run_once

NODES = 100_000
DEFINITIONS = 1_000

PROGRAMS = os.path.join(os.path.dirname(os.path.abspath(__file__)), "programs")

# Room for each of these passes; what a run does not use it should not pay.
DEPTH = "200000"
CHUNKS = "65536"

# Processor time with one worker beside that of `plain`, and with four beside one.
MOST_BESIDE_PLAIN = 1.3
MOST_BESIDE_ONE = 1.15


class Pass(NamedTuple):
    """A program of the folder `programs`, its packed input and the text that is due."""

    name: str
    packed: bytes
    due: str


def head(tag, *fields):
    """A constructor in packed bytes: whole numbers first, then the bytes of its trees."""
    return bytes([tag]) + b"".join(inputs.number(it) if isinstance(it, int) else it for it in fields)



def substitution(rng):
    """An expression whose leaves are numbers and variables, the half each, beside a search tree of what variables stand for."""
    keys = list(range(DEFINITIONS))
    values = {key: key * 3 for key in keys}

    def definitions(low, high):
        if low == high:
            return head(3)
        middle = (low + high) // 2
        value = head(0, values[middle])
        return b"\x04" + inputs.number(middle) + value + definitions(low, middle) + definitions(middle + 1, high)

    def expression(leaves):
        if leaves == 1:
            key = rng.randrange(2 * DEFINITIONS)
            if rng.random() < 0.5:
                return head(0, key), f"(Number {key})"
            met = f"(Number {values[key]})" if key in values else f"(Variable {key})"
            return head(1, key), met
        left, right = expression(leaves // 2), expression(leaves - leaves // 2)
        return b"\x02" + left[0] + right[0], f"(Apply {left[1]} {right[1]})"

    packed, due = expression(NODES // 2)
    return Pass("substitute", b"\x05" + definitions(0, DEFINITIONS) + packed, due)


class Document:
    """Random blocks, their packed bytes, and their text with the numbers that sections and figures are due."""

    def __init__(self, rng):
        self.rng, self.figures, self.words, self.depth = rng, 0, 0, 0

    def blocks(self, count, level):
        """So many blocks at a level. A section in them takes its share. Answers bytes and text."""
        bytes_of, texts, section = [], [], 1
        while count:
            kind = self.rng.random()
            if kind < 0.3 and count > 8 and level < 12:
                inside = min(count - 1, self.rng.randrange(4, 200))
                self.depth = max(self.depth, level + 1)
                body, text = self.blocks(inside, level + 1)
                bytes_of.append(head(2, 0, body))
                texts.append(f"(Section {section} {text})")
                section += 1
                count -= inside + 1
            elif kind < 0.5:
                self.figures += 1
                bytes_of.append(head(1, 0))
                texts.append(f"(Figure {self.figures})")
                count -= 1
            else:
                words = self.rng.randrange(100)
                self.words += words
                bytes_of.append(head(0, words))
                texts.append(f"(Paragraph {words})")
                count -= 1
        packed = b"".join(b"\x04" + it for it in bytes_of) + b"\x03"
        text = "".join(f"(Then {it} " for it in texts) + "End" + ")" * len(texts)
        return packed, text


def document(rng):
    made = Document(rng)
    packed, text = made.blocks(NODES, 0)
    return Pass("document", packed, f"(Report {made.words} {made.figures} {made.depth} {text})")


SIDE = 2**20


def points(rng):
    return [(rng.randrange(SIDE), rng.randrange(SIDE)) for _ in range(NODES)]


def point_list(of, nil, cons):
    return b"".join(head(cons, x, y) for x, y in of) + bytes([nil])


def kd_tree(rng):
    def build(axis, of):
        if not of:
            return "Empty"
        first, *rest = of
        # splitting puts each list before it in reverse
        before = [it for it in rest if it[axis] < first[axis]][::-1]
        others = [it for it in rest if it[axis] >= first[axis]][::-1]
        return f"(Point {first[0]} {first[1]} {build(1 - axis, before)} {build(1 - axis, others)})"

    of = points(rng)
    return Pass("kd_tree", point_list(of, 0, 1), build(0, of))


def quadtree(rng):
    of = points(rng)
    halves, half = b"", SIDE // 2
    while half:
        halves += head(3, half)
        half //= 2
    return Pass("quadtree", b"\x08" + halves + b"\x02" + point_list(of, 0, 1), str(NODES))


def passes():
    """The four passes, each of a seed of its own."""
    made = [(substitution, 1), (document, 2), (kd_tree, 3), (quadtree, 4)]
    return [make(random.Random(seed)) for make, seed in made]


class Cost(NamedTuple):
    """Processor seconds, seconds that passed, and bytes of memory at the peak."""

    processor: float
    passed: float
    peak: int


class Bench:
    def __init__(self, gib, folder):
        self.gib, self.folder, self.missed = gib, folder, 0

    def at(self, name):
        return os.path.join(self.folder, name)

    def cost(self, this, words):
        """What a command on a pass costs, which has to print what is due."""
        source = os.path.join(PROGRAMS, f"{this.name}.gib")
        costs = []
        for _ in range(RUNS):
            processor, peak, passed = run_once([*self.gib, words[0], source, self.at(this.name), *words[1:]], self.at("out"))
            with open(self.at("out")) as made:
                if made.read() != this.due + "\n":
                    raise Missed("another result than is due")
            costs.append(Cost(processor, passed, peak))
        processor, passed, peak = zip(*costs)
        return Cost(min(processor), min(passed), max(peak))

    def row(self, this, what, words, beside=None, most=None):
        """Prints a line for a command, and holds its processor time against another's. Answers its cost."""
        try:
            cost = self.cost(this, words)
        except Missed as missed:
            self.miss(f"{this.name}, {what}", missed)
            return None
        ratio = cost.processor / beside.processor if beside else None
        told = f"{ratio:>8.2f}" if beside else ""
        print(f"{this.name + ', ' + what:28}{cost.processor:>8.2f} s{cost.passed:>8.2f} s{cost.peak / 1e6:>10.1f} MB{told}", flush=True)
        if beside and ratio > most:
            self.miss(f"{this.name}, {what}", f"more than {most} times")
        return cost

    def miss(self, what, why):
        self.missed += 1
        print(f"{what}: MISSED: {why}", flush=True)

    def measure(self, this):
        with open(self.at(this.name), "wb") as file:
            file.write(inputs.packed(this.packed))
        room = ["--depth", DEPTH, "--chunks", CHUNKS]
        plain = self.row(this, "plain", ["plain", "--depth", DEPTH])
        one = self.row(this, "run", ["run", *room], plain, MOST_BESIDE_PLAIN)
        self.row(this, "run, 4 workers", ["run", *room, "--workers", "4"], one, MOST_BESIDE_ONE)


def main():
    sys.setrecursionlimit(100_000)
    with tempfile.TemporaryDirectory(prefix="gib-passes-") as folder:
        bench = Bench(sys.argv[1].split(), folder)
        print(f"{'':28}{'processor':>10}{'passed':>10}{'peak':>13}{'beside':>8}")
        for this in passes():
            bench.measure(this)
    print(f"{bench.missed} missed")
    sys.exit(1 if bench.missed else 0)


if __name__ == "__main__":
    main()
