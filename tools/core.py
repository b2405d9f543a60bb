"""The text of a core (docs/CORE.md), as `gib core` prints it: its functions, and the lines of each as a tree. Copies are written out in it."""

from typing import NamedTuple

from description import words_of



class Line(NamedTuple):
    """A line: its words, and the lines below it."""

    words: list
    below: list

    @property
    def kind(self):
        return self.words[0]


class Function(NamedTuple):
    """A function: its name, its parameters with their types, the types of what it gives, and its body."""

    name: str
    parameters: list
    results: list
    body: list


def function_of(line, body):
    """A function, by its line."""
    front, _, results = line.rpartition(" : ")
    name, *parameters = front.removeprefix("fun ").split(" %")
    parts = results[1:-1].split(", ") if results.startswith("(") else [results]
    return Function(name, [("%" + one).split(":", 1) for one in parameters], parts, body)


def functions_of(text):
    """The functions of a core, main last."""
    found, open_at = [], []
    for line in text.splitlines():
        words = line.lstrip(" ")
        level = (len(line) - len(words)) // 2
        below = []
        if level:
            open_at[level - 1].append(Line(words_of(words), below))
        else:
            found.append(function_of(line, below))
        del open_at[level:]
        open_at.append(below)
    return found


def lines_of(block):
    """All lines of a block, also those further in, in the order of the text."""
    for line in block:
        yield line
        yield from lines_of(line.below)


def with_offsets(functions):
    """The names of the constructors whose heads store offsets: a field of an arm is reached by one."""
    names = set()
    for function in functions:
        owner = {}
        for line in lines_of(function.body):
            if line.kind == "case":
                owner.update((field, arm.kind) for arm in line.below for field in arm.words[1:])
            elif line.kind == "reach" and line.words[-1] == "offset":
                names.add(owner[line.words[1]])
    return names
