"""What a call costs that gives a tree and a number, beside one that gives the tree alone.

Instructions are counted by valgrind's callgrind where that is installed, and then decide; else the least processor time of some runs."""

import os
import shutil
import sys
import tempfile

import inputs
from measure import RUNS, instructions, measure

# A call with two parts may take so many times one that gives the tree alone.
MOST_RATIO = 1.15

TREE = "data Tree = Leaf Int | Node Tree Tree ;\n"

# So many calls are made in a run, and none in the run that it is measured over; fewer where instructions are counted.
CALLS = 400_000
COUNTED_CALLS = 20_000

# Each call reads a leaf and makes another one in a region of its own, which the next call reads.
LOOP_ONE = """fun next (tree : Tree) : Tree = case tree of { Leaf n -> Leaf (n + 1) ; Node left right -> Node left right } ;

fun loop (n : Int) (tree : Tree) : Int =
  if (n < 1) then (case tree of { Leaf m -> m ; Node left right -> 0 }) else let more = next tree in loop (n - 1) more ;
"""

LOOP_TWO = """fun next (tree : Tree) : (Tree, Int) = case tree of { Leaf n -> (Leaf (n + 1), n) ; Node left right -> (Node left right, 0) } ;

fun loop (n : Int) (tree : Tree) : Int =
  if (n < 1) then (case tree of { Leaf m -> m ; Node left right -> 0 }) else let (more, old) = next tree in loop (n - 1) more ;
"""

# Each call makes a tree of 1,024 leaves out of another one, in one walk.
WALK = """fun grow (n : Int) : Tree = if (n < 1) then Leaf 1 else let u = grow (n - 1) in Node u u ;

fun sum (tree : Tree) : Int = case tree of { Leaf n -> n ; Node left right -> (sum left + sum right) } ;
"""

WALK_ONE = """fun same (tree : Tree) : Tree =
  case tree of { Leaf n -> Leaf (n + 1) ; Node left right -> let a = same left in let b = same right in Node a b } ;

fun walks (n : Int) (tree : Tree) : Int = if (n < 1) then 0 else let u = same tree in case u of { Leaf k -> 0 ; Node left right -> walks (n - 1) tree } ;
"""

WALK_TWO = """fun same (tree : Tree) : (Tree, Int) =
  case tree of {
    Leaf n -> (Leaf (n + 1), n) ;
    Node left right -> let (a, x) = same left in let (b, y) = same right in (Node a b, (x + y))
  } ;

fun walks (n : Int) (tree : Tree) : Int =
  if (n < 1) then 0 else let (u, s) = same tree in case u of { Leaf k -> s ; Node left right -> walks (n - 1) tree } ;
"""

LOOPS = tuple(TREE + text + "\nmain (n : Int) : Int = let tree = Leaf 0 in loop n tree ;\n" for text in (LOOP_ONE, LOOP_TWO))
WALKS = tuple(TREE + WALK + text + "\nmain (n : Int) : Int = let tree = grow 10 in walks n tree ;\n" for text in (WALK_ONE, WALK_TWO))

# The calls of one walk over such a tree.
WALK_CALLS = 2 * 1024 - 1


class Parts:
    """Runs programs on a number, in a folder of its own."""

    def __init__(self, gib, folder):
        self.gib, self.folder = gib, folder
        self.counts = shutil.which("valgrind") is not None

    def cost(self, program, number, due):
        """Instructions of a run on a number, or its processor seconds, which has to print what is due."""
        at = {name: os.path.join(self.folder, name) for name in ("program", "number", "out")}
        for name, data in (("program", program.encode()), ("number", inputs.packed(inputs.number(number)))):
            with open(at[name], "wb") as file:
                file.write(data)
        words = [*self.gib, "run", at["program"], at["number"], "--depth", "1000000", "--chunks", "65536", "--workers", "1"]
        seconds = measure(words, at["out"], at["out"], b"%d\n" % due)[0]
        return instructions(words) if self.counts else seconds

    def each(self, program, number, calls, due):
        """What each of so many calls costs, over the run on 0."""
        return (self.cost(program, number, due(number)) - self.cost(program, 0, due(0))) / (number * calls)


def main():
    gib = sys.argv[1].split()
    missed = 0
    with tempfile.TemporaryDirectory(prefix="gib-parts-") as folder:
        parts = Parts(gib, folder)
        calls, scale, unit = (COUNTED_CALLS, 1, "instructions") if parts.counts else (CALLS, 1e9, f"ns, the least of {RUNS} runs")
        cases = (
            ("a call", LOOPS, calls, 1, lambda n: n, MOST_RATIO),
            ("a walk over a tree, a call", WALKS, calls // WALK_CALLS, WALK_CALLS, lambda n: 0, None),
        )
        for what, programs, number, made, result, most in cases:
            one, two = (parts.each(program, number, made, result) * scale for program in programs)
            print(f"{what:28}{one:>10,.0f}{two:>10,.0f} with a second part, {unit}: {two / one:.2f} times", flush=True)
            if most is not None and two / one > most:
                missed += 1
                print(f"{what}: MISSED: more than {most} times")
    sys.exit(1 if missed else 0)


main()
