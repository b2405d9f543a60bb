"""The constructors of a program, with their tags: of its types, and of the copies of types with parameters, one for each list of types at which they are
used (docs/LANGUAGE.md, "Lines and statuses", has the order in which copies are found).
"""

import os
import sys

ROOT = os.path.dirname(os.path.dirname(os.path.abspath(__file__)))
sys.path.append(os.path.join(ROOT, "examples", "python"))

from description import Constructor, Refused  # noqa: E402
from source import Kind, Parser, tokens_of  # noqa: E402


def named(kind):
    """The name of a type without variables, as the core and descriptions have it."""
    return f"{kind.name.text}[{' '.join(map(named, kind.given))}]" if kind.given else kind.name.text


def copy_name(name, kinds):
    """The name of a declaration's copy."""
    return f"{name}[{' '.join(map(named, kinds))}]" if kinds else name


class Copies:
    """Walks the declarations without type variables, then the copies that are asked for, the first asked first."""

    def __init__(self, datas, functions):
        self.datas = {name.text: (variables, made) for name, variables, made in datas}
        self.owners = {con.text: name.text for name, _, made in datas for con, _ in made}
        self.functions = {name.text: (variables, body) for name, variables, *body in functions}
        self.asked, self.found = set(), []
        for name, variables, _ in datas:
            if not variables:
                self.ask(name.text, True, ())
        for name, variables, *_ in functions:
            if not variables:
                self.ask(name.text, False, ())
        for name, is_data, kinds in self.found:
            (self.data if is_data else self.function)(name, kinds)

    def ask(self, name, is_data, kinds):
        """A use of a declaration at some types."""
        copy = copy_name(name, kinds), is_data
        if copy not in self.asked:
            self.asked.add(copy)
            self.found.append((name, is_data, kinds))

    def types(self, kinds, known):
        """The types with what is known put for their variables; each use in them asks, the outer one first."""
        for kind in kinds:
            if kind.given:
                self.ask(kind.name.text, True, tuple(inner.filled(known) for inner in kind.given))
                self.types(kind.given, known)

    def data(self, name, kinds):
        variables, made = self.datas[name]
        known = dict(zip([variable.text for variable in variables], kinds))
        for _, fields in made:
            self.types(fields, known)

    def function(self, name, kinds):
        variables, (parameters, results, body) = self.functions[name]
        known = dict(zip([variable.text for variable in variables], kinds))
        self.types([kind for _, kind in parameters] + results, known)
        self.expression(body, known)

    def expressions(self, parts, known):
        for part in parts:
            self.expression(part, known)

    def expression(self, part, known):
        """What the uses in an expression ask for: a name before its types, and these before its arguments."""
        if part.form in ("call", "make"):
            name, kinds, given = part.parts
            if kinds:
                owner = self.owners[name.text] if part.form == "make" else name.text
                self.ask(owner, part.form == "make", tuple(kind.filled(known) for kind in kinds))
                self.types(kinds, known)
            self.expressions(given, known)
        else:
            self.expressions(part.inner(), known)

    def constructors(self):
        """Those of all types, in the order of their tags."""
        found = []
        for name, is_data, kinds in self.found:
            if is_data:
                variables, made = self.datas[name]
                known = dict(zip([variable.text for variable in variables], kinds))
                owner = copy_name(name, kinds)
                for con, fields in made:
                    types = tuple(named(kind.filled(known)) for kind in fields)
                    found.append(Constructor(copy_name(con.text, kinds), len(found), owner, types))
        return found


def constructors_of(source):
    """The constructors of a source, and the types of main's parameter and result. One without type variables is read no further than that asks for."""
    try:
        parser = Parser(tokens_of(source))
        datas = parser.several(("data",), parser.data)
        if any(variables for _, variables, _ in datas):
            datas, functions = Parser(tokens_of(source)).program()
            _, _, parameters, results, _ = functions[-1]
        else:
            functions = []
            parameters, results = parser.main_head()
        found = Copies(datas, functions).constructors()
        return found, named(parameters[0][1]), named(results[0])
    except (ValueError, KeyError, IndexError, AttributeError, StopIteration, RecursionError):
        raise Refused("this is no source that gib check takes") from None
