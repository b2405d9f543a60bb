"""Counts what a core costs where it happens once, as crates/gib_core/specs/Cost.antt counts it: regions that are begun, and items that are written.

counting.py SRC INP FORKS SKIPS PROGRAM ..: prints both for a packed file. Each function of the core becomes one of Python. `chunks_held` says of a core without
running it which functions hold chunks while a call of themselves is open.
"""

import os
import subprocess
import sys
import threading

ROOT = os.path.dirname(os.path.dirname(os.path.abspath(__file__)))
sys.dont_write_bytecode = True
sys.path.insert(0, os.path.join(ROOT, "examples", "python"))

from core import functions_of, lines_of  # noqa: E402
from description import SCALARS, Schema, shown  # noqa: E402
from gbp import source_of  # noqa: E402
from values import ValueSink, convey  # noqa: E402

DEEPEST = 1_000_000


class Unknown(Exception):
    """Which parts of several are trees is not told by the core."""


def wrapped(number):
    """A number of 64 bits, as the language's operations give it."""
    return (number + 2**63) % 2**64 - 2**63


def quot(left, right):
    """The quotient, cut towards zero."""
    return wrapped(abs(left) // abs(right) * (1 if (left < 0) == (right < 0) else -1))


def rem(left, right):
    """What is left of that quotient."""
    return wrapped(left - right * quot(left, right))


def atom(word):
    return "v" + word[1:] if word[0] == "%" else word


def called(line):
    """What a call hands over, without the ends that it tells."""
    words = line.words[: line.words.index("ends")] if "ends" in line.words else line.words
    return words[1], words[2:]


class Parts:
    """Which variables of a `several` are trees: by the call that gives them, else by what is done with them."""

    def __init__(self, functions):
        self.functions = {function.name: function for function in functions}

    def kinds(self, function, variables, block):
        """Of each of the variables whether it is a tree."""
        last = [line for line in lines_of(block) if line.kind in ("call", "tuple")]
        results = [self.functions[called(line)[0]].results for line in last if line.kind == "call"]
        for told in results:
            if len(told) == len(variables):
                return [kind not in SCALARS for kind in told]
        tuples = [line for line in last if line.kind == "tuple" and len(line.words) - 1 + len(line.below) == len(variables)]
        trees, used = len(tuples[0].below), self.used_as_trees(function)
        known = [variable in used for variable in variables]
        if sum(known) != trees:
            raise Unknown
        return known

    def used_as_trees(self, function):
        """The variables that stand where a tree is due."""
        found = set()
        for line in lines_of(function.body):
            if line.kind in ("point", "case"):
                found.add(line.words[1])
            elif line.kind == "call":
                name, given = called(line)
                due = [kind for _, kind in self.functions[name].parameters]
                found.update(word for word, kind in zip(given, due) if kind not in SCALARS)
        return found


# -- the core as functions of Python -------------------------------------------------------------------------------------------------


class Writer:
    """Writes a function of Python for each of the core. `n` is how many levels of forks are left. Counts go to the globals `items` and `regions`, those of each
    block once."""

    def __init__(self, schema, functions):
        self.schema, self.parts, self.lines, self.heads = schema, Parts(functions), [], {}
        self.names = {function.name: f"f{number}" for number, function in enumerate(functions)}
        for function in functions:
            self.write(function)

    def put(self, level, text):
        self.lines.append(" " * level + text)

    def write(self, function):
        self.function = function
        taken = [atom(name) for name, _ in function.parameters]
        self.put(0, f"def {self.names[function.name]}({', '.join(['n', *taken])}):")
        self.put(1, "global items, regions")
        self.block(1, function.body, "return ", "n", [kind not in SCALARS for kind in function.results])

    def block(self, level, block, target, forks, trees):
        """The code of a block, whose value goes to the target; of several parts `trees` says which are trees."""
        place = len(self.lines)
        counts = {"items": 0, "regions": 0}
        for at, line in enumerate(block):
            if line.kind == "past":
                self.heads[line.words[1]] = line.words[2]
                counts["items"] += 1
            elif line.kind in ("here", "region", "scalar", "several"):
                self.side(level, line, forks, counts)
            elif line.kind == "prim":
                self.operation(level, line.words[1:])
            elif line.kind == "par":
                self.both(level, line, forks, counts)
            elif line.kind == "if":
                self.choice(level, line, block[at + 1], (target, forks, trees))
            elif line.kind not in ("reach", "else"):
                self.last(level, line, (target, forks, trees), counts)
        told = [f"{name} += {count}" for name, count in counts.items() if count]
        self.lines[place:place] = [" " * level + "; ".join(told)] if told else []

    def side(self, level, line, forks, counts):
        """A line that binds what its block gives."""
        variables = line.words[1:]
        trees = self.parts.kinds(self.function, variables, line.below) if line.kind == "several" else []
        counts["regions"] += sum(trees) + (line.kind == "region")
        self.block(level, line.below, ", ".join(map(atom, variables)) + " = ", forks, trees)

    def operation(self, level, words):
        name, left, sign, right = atom(words[0]), atom(words[2]), words[3], atom(words[4])
        self.put(level, f"{name} = {sign}({left}, {right})" if sign in ("quot", "rem") else f"{name} = {left} {sign} {right}")
        if sign in ("+", "-", "*"):
            self.put(level, f"if not {-(2**63)} <= {name} < {2**63}: {name} = wrapped({name})")

    def both(self, level, line, forks, counts):
        """Both sides of a `par`. Where it is forked, the right side of a `here` has a region, and its parent an indirection to it."""
        inside = forks
        if len(line.words) == 2:
            inside = f"m{level}_{len(self.lines)}"
            self.put(level, f"{inside} = {forks} - 1 if {forks} else 0")
            if line.below[1].kind == "here":
                self.put(level, f"if {forks}: regions += 1; items += 1")
        for side in line.below:
            self.side(level, side, inside, counts)

    def last(self, level, line, ended, counts):
        """The line that ends a block."""
        target, forks, trees = ended
        if line.kind == "write":
            made = self.schema.by_name[self.heads[line.words[1]]]
            fields = dict(zip(made.scalars + made.packed, map(atom, line.words[2:])))
            self.put(level, f'{target}("{made.shown}", {"".join(fields[place] + ", " for place in sorted(fields))})')
        elif line.kind == "call":
            name, given = called(line)
            self.put(level, f"{target}{self.names[name]}({', '.join([forks, *map(atom, given)])})")
        elif line.kind == "case":
            self.case(level, line, ended)
        elif line.kind == "tuple":
            self.tuple(level, line, ended)
        else:
            counts["items"] += line.kind == "point"
            self.put(level, target + atom(line.words[1]))

    def tuple(self, level, line, ended):
        target, forks, trees = ended
        scalars, built = iter(map(atom, line.words[1:])), iter(line.below)
        parts = []
        for tree in trees:
            parts.append(f"p{level}_{len(self.lines)}_{len(parts)}" if tree else next(scalars))
            if tree:
                self.block(level, next(built).below, f"{parts[-1]} = ", forks, [])
        self.put(level, target + ", ".join(parts))

    def choice(self, level, line, other, ended):
        self.put(level, f"if {atom(line.words[1])}:")
        self.block(level + 1, line.below, *ended)
        self.put(level, "else:")
        self.block(level + 1, other.below, *ended)

    def case(self, level, line, ended):
        name, arms = atom(line.words[1]), line.below
        for number, arm in enumerate(arms):
            test = "else:" if number == len(arms) - 1 else f'{"elif" if number else "if"} {name}[0] == "{shown(arm.kind)}":'
            self.put(level, test if len(arms) > 1 else "if True:")
            if arm.words[1:]:
                self.put(level + 1, f"_, {', '.join(map(atom, arm.words[1:]))} = {name}")
            self.block(level + 1, arm.below, *ended)


def deep(work):
    """Does work that recurses as deep as a program may."""
    sys.setrecursionlimit(2 * DEEPEST)
    if sys.version_info < (3, 11):
        threading.stack_size(1 << 30)
    thread = threading.Thread(target=work)
    thread.start()
    thread.join()


def constructors(value):
    """How many constructors a value has."""
    count, due = 0, [value]
    while due:
        part = due.pop()
        if isinstance(part, tuple):
            count += 1
            due += part[1:]
    return count


def count(schema, functions, value, forks):
    """The regions that are begun, and the items that are written or stand in the input."""
    writer = Writer(schema, functions)
    made = {"items": 0, "regions": 0, "wrapped": wrapped, "quot": quot, "rem": rem, "True": True, "False": False}
    exec(compile("\n".join(writer.lines), "core", "exec"), made)
    deep(lambda: made[writer.names["main"]](forks, value))
    return made["regions"], made["items"] + constructors(value)


# -- what open calls hold ------------------------------------------------------------------------------------------------------------


def calls_within(parts, function, block, held):
    """The names that a block calls, each with how many chunks are held meanwhile: one for each region that the call fills."""
    for line in block:
        if line.kind == "call":
            yield called(line)[0], held
        more = 1 if line.kind == "region" else 0
        if line.kind == "several":
            more = sum(parts.kinds(function, line.words[1:], line.below))
        yield from calls_within(parts, function, line.below, held + more)


def chunks_held(functions):
    """Of each function that holds chunks while a call of it within itself is open how many, the greatest number first."""
    parts = Parts(functions)
    calls = {function.name: list(calls_within(parts, function, function.body, 0)) for function in functions}
    reached = {name: {other for other, _ in several} for name, several in calls.items()}
    for _ in functions:
        for name, several in reached.items():
            several |= {far for other in several for far in reached[other]}
    held = {name: max((count for other, count in several if name in reached[other] | {other}), default=0) for name, several in calls.items()}
    return sorted(((count, shown(name)) for name, count in held.items() if count), reverse=True)


def main():
    source, given, forks, skips, *program = sys.argv[1:]
    with open(source, encoding="latin-1") as file:
        schema = Schema.of_source(file.read())
    with open(given, "rb") as file:
        data = file.read()
    made = ValueSink()
    convey(schema.parameter, source_of(schema, data), made)
    core = subprocess.run([*program, "core", *(["--skips"] if skips else []), "--", source], stdout=subprocess.PIPE, text=True, check=True).stdout
    print(*count(schema, functions_of(core), made.value, int(forks)))


if __name__ == "__main__":
    main()
