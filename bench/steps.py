"""How many micro-steps a second the machine makes on one processor, and what it takes to make one for a depth of calls."""

import os
import shutil
import sys
import tempfile

import inputs
from measure import RUNS, Missed, instructions, measure

# So many steps a second are the aim.
AIM = 60_000_000

# Each program with its size, the chunks and the depth that it gets, the steps that it makes at this size by its code, which
# `gib code` lists, and what it prints. A step gets or puts bytes of one word at most; none of these places a redirect.

FIB = """fun fib (n : Int) : Int = if (n < 2) then n else (fib (n - 1) + fib (n - 2)) ;

main (n : Int) : Int = fib n ;
"""

SUM = """fun sum_to (n : Int) : Int = if (n < 1) then 0 else (n + sum_to (n - 1)) ;

main (n : Int) : Int = sum_to n ;
"""

BOXES = """data Box = Box Int Int Int Int ;

fun read (box : Box) : Int = case box of { Box a b c d -> ((a + b) + (c + d)) } ;

fun boxes (n : Int) : Int =
  if (n < 1) then 0 else let box = Box n n n n in (read box + boxes (n - 1)) ;

main (n : Int) : Int = boxes n ;
"""


def fibonacci(n):
    one, next_one = 0, 1
    for _ in range(n):
        one, next_one = next_one, one + next_one
    return one


def fib_steps(n):
    """3 for each call below 2, 8 for each other one, and 2 of main."""
    low = fibonacci(n + 1)
    return 3 * low + 8 * (low - 1) + 2


def sum_steps(n):
    """6 for each call but the last, which takes 3, and 2 of main."""
    return 6 * n + 5


# So many boxes of 33 bytes stand one behind another in a chunk, from its first byte on.
BOXES_A_CHUNK = 122


def box_steps(n):
    """29 for each box: 5 put its head, 1 gets its tag and 8 its numbers, which lie in two words each; 4 steps less for every eighth box of a
    chunk, whose numbers lie in one each. 3 of the last call, and 2 of main."""
    aligned = n // BOXES_A_CHUNK * (BOXES_A_CHUNK // 8) + n % BOXES_A_CHUNK // 8
    return 29 * n - 4 * aligned + 5


CASES = (
    ("words and calls", FIB, 32, 64, 64, fib_steps, fibonacci),
    ("deep calls", SUM, 999_998, 64, 1_000_000, sum_steps, lambda n: n * (n + 1) // 2),
    ("heads put and got", BOXES, 999_998, 16_384, 1_000_000, box_steps, lambda n: 2 * n * (n + 1)),
)

# Passes over a tree of 1,024 leaves, as many as the argument says.
LEAVES = 1024

GROW = """data Tree = Leaf Int | Node Tree Tree ;

fun grow (n : Int) : Tree = if (n < 1) then Leaf 1 else let a = grow (n - 1) in let b = grow (n - 1) in Node a b ;
"""

SUMS = """
fun sums (n : Int) (tree : Tree) : Int = if (n < 1) then 0 else (sum tree + sums (n - 1) tree) ;

main (n : Int) : Int = let tree = grow 10 in sums n tree ;
"""

SUM_TREE = "fun sum (tree : Tree) : Int = case tree of { Leaf n -> n ; Node left right -> (sum left + sum right) } ;\n"
SUM_PAR = "fun sum (tree : Tree) : Int = case tree of { Leaf n -> n ; Node left right -> let par a = sum left and b = sum right in (a + b) } ;\n"

COPIES = """
fun add_one (tree : Tree) : Tree =
  case tree of { Leaf n -> Leaf (n + 1) ; Node left right -> let a = add_one left in let b = add_one right in Node a b } ;

fun copies (n : Int) (tree : Tree) : Int =
  if (n < 1) then 0 else let other = add_one tree in case other of { Leaf k -> 0 ; Node left right -> copies (n - 1) tree } ;

main (n : Int) : Int = let tree = grow 10 in copies n tree ;
"""

# What is counted in instructions: the program and its two numbers, what it gives for a number, of what there are so many more in the run on the
# second number, and how many instructions each may take.
COUNTED = (
    ("a sum, a leaf", GROW + SUM_TREE + SUMS, 2, 20, lambda n: n * LEAVES, 18 * LEAVES, 380),
    ("a sum in place, a leaf", GROW + SUM_PAR + SUMS, 2, 20, lambda n: n * LEAVES, 18 * LEAVES, 570),
    ("add_one, a leaf", GROW + COPIES, 2, 20, lambda n: 0, 18 * LEAVES, 830),
    ("fib, a call", FIB, 0, 20, fibonacci, 2 * fibonacci(21) - 2, 155),
    ("a box", BOXES, 0, 20_000, lambda n: 2 * n * (n + 1), 20_000, 1_350),
)

# A machine is made for so many calls, and for frames of few words and of many.
DEPTHS = (10_000, 1_000_000)
WIDE = 512


def wide_program(words):
    """A sum of so many words in all: half of them add a number to the argument, and half but one add two of those before."""

    def total(first, behind):
        if behind - first == 1:
            return f"(n + {first})"
        middle = (first + behind) // 2
        return f"({total(first, middle)} + {total(middle, behind)})"

    return f"main (n : Int) : Int = {total(0, words // 2)} ;\n"


def wide_answer(words):
    """What it gives for 0."""
    return sum(range(words // 2))


class Steps:
    """Runs programs in a folder of its own."""

    def __init__(self, gib, folder):
        self.gib, self.folder, self.missed = gib, folder, 0

    def at(self, name):
        return os.path.join(self.folder, name)

    def run(self, program, number, depth, chunks, due):
        """Processor seconds and the peak in bytes of a run on a number, which has to print what is due."""
        for name, data in (("program", program.encode()), ("number", inputs.packed(inputs.number(number)))):
            with open(self.at(name), "wb") as file:
                file.write(data)
        words = ["run", self.at("program"), self.at("number"), "--depth", str(depth), "--chunks", str(chunks)]
        return measure([*self.gib, *words], self.at("out"), self.at("out"), b"%d\n" % due)

    def count(self, what, program, first, second, result, more, most):
        """Instructions for each of what there is more in the run on the second number."""
        counts = []
        for number in (first, second):
            self.run(program, number, 100_000, 4_096, result(number))
            words = ["run", self.at("program"), self.at("number"), "--depth", "100000", "--chunks", "4096", "--workers", "1"]
            counts.append(instructions([*self.gib, *words]))
        each = (counts[1] - counts[0]) / more
        print(f"{what:22}{each:>14,.0f} instructions", flush=True)
        if each > most:
            self.miss(what, f"more than {most:,} instructions")

    def speed(self, what, program, size, chunks, depth, steps, result):
        """Steps a second, by the time over that of the same run on 0."""
        seconds = self.run(program, size, depth, chunks, result(size))[0] - self.run(program, 0, depth, chunks, result(0))[0]
        rate = (steps(size) - steps(0)) / seconds
        print(f"{what:22}{steps(size):>14,} steps{seconds:>10.3f} s{rate / 1e6:>10.1f} million a second", flush=True)
        if rate < AIM:
            self.miss(what, f"less than {AIM:,} steps a second")

    def making(self, what, program, answer):
        """What a run takes that makes a machine for a depth and hardly steps."""
        for depth in DEPTHS:
            try:
                seconds, peak = self.run(program, 0, depth, 64, answer)
            except Missed as missed:
                self.miss(what, f"at depth {depth:,}: {missed}")
                return
            print(f"{what:22}{depth:>14,} calls{seconds:>10.3f} s{peak / 1e6:>10.1f} MB", flush=True)

    def miss(self, what, why):
        self.missed += 1
        print(f"{what}: MISSED: {why}", flush=True)


def main():
    gib = sys.argv[1].split()
    with tempfile.TemporaryDirectory(prefix="gib-steps-") as folder:
        steps = Steps(gib, folder)
        print(f"the least time of {RUNS} runs each")
        for case in CASES:
            try:
                steps.speed(*case)
            except Missed as missed:
                steps.miss(case[0], missed)
        if shutil.which("valgrind") is not None:
            for row in COUNTED:
                try:
                    steps.count(*row)
                except Missed as missed:
                    steps.miss(row[0], missed)
        steps.making("make, few words", SUM, 0)
        steps.making(f"make, {WIDE} words", wide_program(WIDE), wide_answer(WIDE))
    print(f"{steps.missed} missed")
    sys.exit(1 if steps.missed else 0)


if __name__ == "__main__":
    main()
