"""The types of a source of Gib with type parameters, and made values of them as texts."""

import os
import sys

sys.dont_write_bytecode = True
sys.path.insert(0, os.path.join(os.path.dirname(os.path.abspath(__file__)), "..", "..", "tools"))

from source import Parser, tokens_of  # noqa: E402

SCALARS = ("Int", "Bool")


class Types:
    """The declared types of a source, and the type of main's parameter."""

    def __init__(self, source):
        datas, functions = Parser(tokens_of(source)).program()
        self.datas = {name.text: ([var.text for var in variables], made) for name, variables, made in datas}
        self.parameter = functions[-1][2][0][1]

    def constructors(self, kind):
        """The constructors of a type, each with the types of its fields."""
        variables, made = self.datas[kind.name.text]
        given = dict(zip(variables, kind.given))
        return [(con.text, [field.filled(given) for field in fields]) for con, fields in made]


class Maker:
    """Makes values at random. `number` gives an Int, for the constructor and the field that it stands in."""

    def __init__(self, types, chance, number):
        self.types, self.chance, self.number = types, chance, number
        self.least, self.known, self.made = {}, {}, {}

    def size(self, kind, above=()):
        """The fewest constructors that a value of a type has, none where it has no end on this way."""
        if kind.name.text in SCALARS:
            return 0
        if kind.text in above:
            return None
        if kind.text not in self.least:
            found = [self.size_of(fields, (*above, kind.text)) for _, fields in self.types.constructors(kind)]
            found = [size for size in found if size is not None]
            if above and not found:
                return None
            self.least[kind.text] = min(found)
        return self.least[kind.text]

    def size_of(self, fields, above):
        sizes = [self.size(field, above) for field in fields]
        return None if None in sizes else 1 + sum(sizes)

    def value(self, kind, count):
        """The text of a value with some `count` constructors. Nothing here recurses, so that lists may be long."""
        out, work = [], [(kind, count, "")]
        while work:
            item = work.pop()
            if isinstance(item, str):
                out.append(item)
                continue
            kind, count, where = item
            if kind.name.text == "Int":
                out.append(str(self.number(where)))
            elif kind.name.text == "Bool":
                out.append(self.chance.choice(("True", "False")))
            else:
                self.constructor(kind, count, out, work)
        return "".join(out)

    def constructor(self, kind, count, out, work):
        if kind.text not in self.made:
            self.made[kind.text] = self.measured(kind)
        name, fields = self.chosen(self.made[kind.text], count)
        if not fields:
            out.append(name)
            return
        out.append("(" + name)
        parts = self.shares(fields, count - 1)
        work.append(")")
        for place in reversed(range(len(fields))):
            work.append((fields[place], parts[place], f"{name}.{place}"))
            work.append(" ")

    def measured(self, kind):
        """The constructors of a type, each with its least size, and whether its values may have any size."""
        several = self.types.constructors(kind)
        return [(name, fields, self.size_of(fields, ()) or 1, any(self.grows(field) for field in fields)) for name, fields in several]

    def chosen(self, several, count):
        """A constructor and its fields: one that can be large where much is to come, else one that ends soon."""
        fitting = [made for made in several if made[2] <= max(count, 1)] or [min(several, key=lambda made: made[2])]
        large = [made for made in fitting if made[3]]
        small = [made for made in fitting if not made[3]]
        return self.chance.choice(large if large and count > 1 else small or fitting)[:2]

    def grows(self, kind, seen=()):
        """Whether values of a type may have any size."""
        if kind.name.text in SCALARS:
            return False
        if kind.text in seen:
            return True
        if kind.text not in self.known or seen:
            found = any(self.grows(field, (*seen, kind.text)) for _, fields in self.types.constructors(kind) for field in fields)
            if seen:
                return found
            self.known[kind.text] = found
        return self.known[kind.text]

    def shares(self, fields, count):
        """How much of what is to come goes to each field."""
        growing = [place for place, field in enumerate(fields) if self.grows(field)]
        weights = [self.chance.uniform(0.3, 1) for _ in growing]
        # A list's elements are small, and its rest has what is left.
        if len(growing) == 2 and fields[growing[0]].text != fields[growing[1]].text:
            weights = [1, max(1, count / 8)]
        parts = [0] * len(fields)
        for place, weight in zip(growing, weights):
            parts[place] = int(count * weight / sum(weights))
        return parts
