"""ends.py GIB: what the ends of a run take for each byte, in instructions of the processor: to check, load, print, show, pack and read a value.

Each figure is what one size takes more than another, for each byte more, so that what a call takes whatever its input does not count. `check`, `load` and `print`
are counted within `run`, by the functions of the program that do them, with all that these call; the others are whole commands. valgrind counts; the same program
and input give the same figure each time.
"""

import os
import re
import subprocess
import sys
import tempfile
from typing import NamedTuple

import inputs

SIZES = (2**12, 2**14)

TYPE = "data Tree = Leaf Int | Node Tree Tree ;\n\n"
SAME_TREE = TYPE + "main (tree : Tree) : Tree = tree ;\n"
# A program that goes into both fields at once, so that nodes store offsets, but does nothing with its input.
APART_TREE = TYPE + """fun sum (tree : Tree) : Int =
  case tree of {
    Leaf n -> n ;
    Node left right -> let par a = sum left and b = sum right in (a + b)
  } ;

main (tree : Tree) : Int = 0 ;
"""

# The functions that do a part of a run, as the program names them.
CHECK = "gib_file::scan::survey"
PRINT = "gib_print::print::keep_text"
# Loading is compiled into the function that loads and runs; to give a value back takes as many steps whatever its size.
LOAD = "gib_app::machine_run::run_within"


class Shape(NamedTuple):
    """A kind of value: its name, the program that gives it back, its packed file and its text of a size, and a program whose heads store offsets, or none."""

    name: str
    same: str
    file: object
    text: object
    apart: str = ""


SHAPES = (
    Shape("tree", SAME_TREE, inputs.tree_file, inputs.tree_text, APART_TREE),
    Shape("list", inputs.LIST, inputs.list_file, inputs.list_text),
)

# What is counted: its aims for a tree and for a list, the words of the command, the function or none, what is left out of its count, and whether a byte is one of
# the text.
ROWS = (
    ("check, a payload byte", (6.2, 3.4), "run", CHECK, (), False),
    ("load without offsets, a payload byte", (14, 10), "run", LOAD, (), False),
    ("load with offsets, a payload byte", (20, None), "run apart", LOAD, (), False),
    ("print, a text byte", (14, 12), "run", PRINT, (), True),
    ("show, a text byte", (14, 14), "show", None, (), True),
    ("pack of the result, a payload byte", (12, 8), "run --pack", None, (("run", None),), False),
    ("pack of a text, a text byte", (30, 30), "pack", None, (), True),
)


class Missed(Exception):
    """The program did not do what it was measured at."""


class Ends:
    def __init__(self, gib, folder):
        self.gib, self.folder = gib, folder

    def at(self, name):
        return os.path.join(self.folder, name)

    def put(self, name, data):
        with open(self.at(name), "wb") as file:
            file.write(data)
        return self.at(name)

    def counted(self, words):
        """How many instructions a command takes, by function, with what each calls; all of them under no name."""
        profile = self.at("profile")
        ran = subprocess.run(["valgrind", "--tool=callgrind", f"--callgrind-out-file={profile}", *words], capture_output=True, text=True)
        found = re.search(r"Collected : (\d+)", ran.stderr)
        if ran.returncode or not found:
            raise Missed(f"status {ran.returncode} {ran.stderr.strip()[-200:]}")
        told = subprocess.run(["callgrind_annotate", "--inclusive=yes", "--threshold=100", profile], capture_output=True, text=True).stdout
        functions = {None: int(found.group(1))}
        for count, name in re.findall(r"^ *([\d,]+) \([^)]*\)  [^:\n]*:(gib_\S+?)(?:::<[^>\n]*>)? \[", told, re.MULTILINE):
            functions[name] = max(functions.get(name, 0), int(count.replace(",", "")))
        return functions

    def words(self, command, shape, source, size):
        """The command on a value of a size."""
        input_file = self.put("text", shape.text(size)) if command == "pack" else self.put("file", shape.file(size))
        if command == "pack":
            return [*self.gib, "pack", source, input_file, self.at("packed")]
        if command == "run apart":
            return [*self.gib, "run", source, input_file]
        if command == "run --pack":
            return [*self.gib, "run", source, input_file, "--pack", self.at("packed")]
        return [*self.gib, command, source, input_file]

    def shape(self, shape):
        """The figures of a kind of value, in the order of the rows."""
        sources = {"run apart": self.put("apart", shape.apart.encode())}
        source = self.put("source", shape.same.encode())
        payload, text = (len(made(SIZES[1])) - len(made(SIZES[0])) for made in (shape.file, shape.text))
        counts = {}
        for command in ("run", "run apart", "show", "run --pack", "pack"):
            if command == "run apart" and not shape.apart:
                continue
            few, more = (self.counted(self.words(command, shape, sources.get(command, source), size)) for size in SIZES)
            counts[command] = {name: more[name] - few.get(name, 0) for name in more}
        figures = []
        for what, _, command, function, without, of_text in ROWS:
            if command not in counts:
                figures.append(None)
                continue
            for part in ((command, function), *without):
                if part[1] not in counts[part[0]]:
                    raise Missed(f"{what}: the program has no function {part[1]}")
            count = counts[command][function] - sum(counts[other][name] for other, name in without)
            figures.append(count / (text if of_text else payload))
        return figures


def main():
    with tempfile.TemporaryDirectory(prefix="gib-ends-") as folder:
        ends = Ends(sys.argv[1].split(), folder)
        figures = [ends.shape(shape) for shape in SHAPES]
    missed = 0
    print("| Instructions of the processor | " + " | ".join(f"a {shape.name} (aim)" for shape in SHAPES) + " |\n|---|" + "---|" * len(SHAPES))
    for row, (what, aims, *_) in enumerate(ROWS):
        told = [(figures[shape][row], aim) for shape, aim in enumerate(aims)]
        cells = ["" if figure is None else f"{figure:.1f} ({aim})" for figure, aim in told]
        missed += sum(figure is not None and round(figure, 1) > aim for figure, aim in told)
        print(f"| {what} | " + " | ".join(cells) + " |")
    print(f"{missed} missed")
    sys.exit(1 if missed else 0)


if __name__ == "__main__":
    main()
