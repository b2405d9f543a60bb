"""The types of a program's values: its constructors, their tags and fields. They come from a description, the text that a packed file of version 2
carries (docs/FORMATS.md, "Packed file"), or from a source.
"""

import os
import re
import sys
from typing import NamedTuple

SCALARS = ("Int", "Bool")
MOST_FIELDS, MOST_TAGS, MOST_WORDS = 8, 200, 64
TOOLS = os.path.join(os.path.dirname(os.path.dirname(os.path.dirname(os.path.abspath(__file__)))), "tools")


class Refused(Exception):
    """A source, a file or a value is none. Of a packed file it says what the program says behind `gib: input: `."""


def shown(name):
    """The name that a constructor, a type or a function has in the source: that of a copy without the types that it is for."""
    return name.partition("[")[0]


class Constructor(NamedTuple):
    """A constructor: its tag among all of the program, and the types of its fields in declared order. A copy is named with its types, `Cons[Int]`."""

    name: str
    tag: int
    type: str
    fields: tuple

    @property
    def shown(self):
        return shown(self.name)

    @property
    def scalars(self):
        """The places of the fields that stand in the head."""
        return [place for place, kind in enumerate(self.fields) if kind in SCALARS]

    @property
    def packed(self):
        """The places of the fields that stand behind the head: the trees."""
        return [place for place, kind in enumerate(self.fields) if kind not in SCALARS]


class Schema:
    """Constructors in the order of their tags, the type of the value (main's parameter), and that of main's result where it is known."""

    def __init__(self, constructors, parameter, result=None):
        self.parameter, self.result, self.constructors = parameter, result, constructors
        self.by_name = {made.name: made for made in constructors}
        self.types = {}
        for made in constructors:
            self.types.setdefault(made.type, []).append(made)
        self.by_tag = {name: {made.tag: made for made in several} for name, several in self.types.items()}
        self.by_shown = {name: {made.shown: made for made in several} for name, several in self.types.items()}
        for kind in [parameter, *(kind for made in constructors for kind in made.fields)]:
            if kind not in SCALARS and kind not in self.types:
                raise Refused(f"the type {kind} is not declared")

    @classmethod
    def of_source(cls, source):
        """Of a source that `gib check` takes, or a LoCal text; other ones may be taken too."""
        if TOOLS not in sys.path:
            sys.path.append(TOOLS)
        from copies import constructors_of

        return cls(*constructors_of(source))

    @classmethod
    def of_description(cls, told):
        """Of the description of a packed file."""
        try:
            lines = told.decode("ascii").split("\n")
        except UnicodeDecodeError:
            raise Refused("its description is no text") from None
        if lines.pop() or not lines or not lines[0].startswith("main "):
            raise Refused("its description has no whole first line")
        made = [one for number, line in enumerate(lines[1:], 2) for one in constructors_in(line, number)]
        schema = cls(made, lines[0].removeprefix("main "))
        tags = [one.tag for one in made]
        if tags != sorted(set(tags)) or len(schema.by_name) != len(made) or schema.description() != told:
            raise Refused("its description is none of a program")
        return schema

    def description(self, kind=None):
        """What a file of version 2 says of its types: `main` and the type, and each data type that it reaches."""
        kind = kind or self.parameter
        reached, due = set(), [kind]
        while due:
            name = due.pop()
            if name not in SCALARS and name not in reached:
                reached.add(name)
                due += [field for made in self.types[name] for field in made.fields]
        lines = [f"main {kind}"]
        for name, several in sorted(self.types.items(), key=lambda item: item[1][0].tag):
            if name in reached:
                lines.append(f"data {name} = " + " | ".join(" ".join([f"{made.name}:{made.tag}", *made.fields]) for made in several))
        return "".join(line + "\n" for line in lines).encode("ascii")


TYPE = re.compile(r"[A-Z]\w*", re.ASCII)
INNERMOST = re.compile(r"\[[A-Z]\w*(?: [A-Z]\w*)*\]", re.ASCII)
HEAD = re.compile(r"([A-Z][^:]*):(0|[1-9][0-9]{0,2})")


def words_of(line):
    """The words of a line, set apart by blanks; in the brackets of a copy's name blanks belong to the name."""
    words, deep = [], 0
    for word in line.split(" "):
        if deep:
            words[-1] += " " + word
        elif word:
            words.append(word)
        deep += word.count("[") - word.count("]")
    return words


def is_type(word):
    """Whether a word is the name of a type, with those that it is for."""
    for _ in range(MOST_WORDS):
        if "[" not in word or "][" in word:
            break
        word = INNERMOST.sub("", word)
    return bool(TYPE.fullmatch(word))


def constructors_in(line, number):
    """The constructors that a line of a description declares."""
    fault = Refused(f"line {number} of its description declares no type")
    front, _, alternatives = line.partition(" = ")
    name = front.removeprefix("data ")
    if name == front or not is_type(name):
        raise fault
    found = []
    for alternative in alternatives.split(" | "):
        word, *fields = words_of(alternative) or [""]
        head = HEAD.fullmatch(word)
        if not head or int(head[2]) >= MOST_TAGS or len(fields) > MOST_FIELDS or not all(map(is_type, [head[1], *fields])):
            raise fault
        if head[1].partition("[")[1:] != name.partition("[")[1:]:
            raise fault
        found.append(Constructor(head[1], int(head[2]), name, tuple(fields)))
    return found
