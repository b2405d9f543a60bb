"""All that the names, counts and types of a source break, each with a note for the hand. Nothing here decides: the first fault that is shown is the one
that the program has found, and only what is noted of others is found here.
"""

import difflib
from typing import NamedTuple

from source import kind_named, tokens_of
from texts import counted, listed


def article(name):
    return "an" if name[0] in "AEIO" else "a"


def count_note(kinds, thing, given):
    """How many there are of what a name takes, of which types, and how many stand there."""
    types = f": {' '.join(kind.text for kind in kinds)}" if kinds else ""
    return f"{counted(len(kinds), thing)}{types}; here {'is' if given == 1 else 'are'} {given}"


def standing(kinds):
    """How many things there are of these types."""
    return "one value is" if len(kinds) == 1 else f"{len(kinds)} parts are"


class Data(NamedTuple):
    """A declared type: its variables, and the names of its constructors."""

    variables: list
    made: list


class Signature(NamedTuple):
    """A function: its type variables, its parameters' types and those of its results."""

    variables: list
    parameters: list
    results: list


# How many parts are due where any number of them may stand.
ANY = 0


def ends_of(part):
    """The expressions by which a function's body ends, and those round them, by their identity."""
    yield id(part)
    several = {"if": part.inner()[1:], "case": part.inner(), "let": part.parts[-1:], "par": part.parts[-1:]}
    for inner in several.get(part.form, []):
        yield from ends_of(inner)


class Program:
    """Finds all that the names, counts and types of declarations break: `notes` has a note for each kind of fault and place, and `marks` the place of what is
    to blame where that is another one. What is `missing` is declared where nobody can read it, and counts as known."""

    def __init__(self, source, datas, functions, missing=()):
        self.source, self.notes, self.marks, self.variables, self.missing = source, {}, {}, [], missing
        self.types = {"Int": Data([], []), "Bool": Data([], [])}
        self.constructors, self.named = {}, {}
        for name, variables, made in datas:
            self.new("type", name, self.types, Data([variable.text for variable in variables], [con.text for con, _ in made]))
            for con, fields in made:
                self.new("constructor", con, self.constructors, (name.text, fields))
        for _, variables, made in datas:
            self.declared(variables)
            for con, fields in made:
                self.types_known(fields)
        for name, variables, parameters, results, _ in functions:
            self.declared(variables)
            if name.text != "main":
                signature = Signature(self.variables, [kind for _, kind in parameters], results)
                self.new("function", name, self.named, signature)
            self.types_known([*(kind for _, kind in parameters), *results])
        for name, variables, parameters, results, body in functions:
            self.variables = [variable.text for variable in variables]
            self.body(name, parameters, results, body)

    def line_of(self, place):
        return self.source.count("\n", 0, place) + 1

    def say(self, kind, place, note):
        self.notes.setdefault((kind, place), note)

    def new(self, sort, name, known, value):
        if name.text in known:
            self.say("name bound twice", name.place, f"there is a {sort} {name.text} already")
        known.setdefault(name.text, value)

    def declared(self, variables):
        """The type variables of a declaration."""
        seen = {}
        for variable in variables:
            self.new("type variable", variable, seen, True)
        self.variables = list(seen)

    def types_known(self, kinds):
        for kind in kinds:
            name = kind.name
            if name.kind == "var":
                if name.text not in self.variables:
                    self.unknown("type variable", name, [*self.variables, *self.types])
            elif name.text not in self.types:
                self.unknown("type", name, self.types)
            elif len(kind.given) != len(self.types[name.text].variables):
                variables = [kind_named(variable) for variable in self.types[name.text].variables]
                self.say("wrong count", name.place, f"{name.text} has {count_note(variables, 'type variable', len(kind.given))}")
            self.types_known(kind.given)

    def unknown(self, sort, name, known, more=""):
        """A name that is not there: one that is much like it, or what else it is the name of."""
        if name.text in self.missing:
            return
        near = difflib.get_close_matches(name.text, known, 1) or difflib.get_close_matches(name.text.capitalize(), known, 1)
        if name.text in self.named and sort != "function":
            more = f"; {name.text} is a function, which takes {counted(len(self.named[name.text].parameters), 'argument')}"
        elif name.text in self.types and sort == "constructor":
            more = f"; {name.text} is a type, with {listed(self.types[name.text].made)}"
        elif name.text in self.constructors and sort == "type":
            more = f"; {name.text} is a constructor of {self.constructors[name.text][0]}"
        elif near:
            more = f"; there is {near[0]}"
        self.say("unknown name", name.place, f"there is no {sort} {name.text}{more}")

    def wanted(self, due, found, part, where):
        # Of another number of types behind a name is told where that stands.
        is_same = due and found and due.name.text == found.name.text and len(due.given) != len(found.given)
        if due and found and due.text != found.text and not is_same:
            here = f"a value of type {found.text}" if found.name.kind == "var" else f"{article(found.text)} {found.text}"
            self.say("wrong type", part.place, f"{here} stands here, and {due.text} is due: {where}")

    def all_wanted(self, due, found, part, where):
        """Types that are due, and those of what stands there, of one value or of parts; nothing where these are not known."""
        if [None] in (due, found):
            return
        if len(due) != len(found):
            self.say("wrong type", part.place, f"{standing(due)} due, and {standing(found)} here: {where}")
        for kind, other in zip(due, found):
            self.wanted(kind, other, part, where)

    def bind(self, scope, name, kind):
        if name.text in scope:
            line = self.line_of(scope[name.text][1])
            self.say("name bound twice", name.place, f"{name.text} is in scope already, from line {line}: take another name")
        return {**scope, name.text: (kind, name.place)}

    def body(self, name, parameters, results, body):
        scope = {}
        for variable, kind in parameters:
            scope = self.bind(scope, variable, kind)
        self.gives, self.results, self.ends = name.text, results, set(ends_of(body))
        self.all_wanted(results, self.infer_all(body, scope, len(results)), body, f"it is the result of {name.text}")

    def infer(self, part, scope):
        """The type of an expression that has to be one value, none where it has none."""
        found = self.infer_all(part, scope, 1)
        return found[0] if len(found) == 1 else None

    def infer_all(self, part, scope, due):
        """The types of what an expression gives, of which so many may stand there."""
        if part.form in ("Int", "Bool"):
            return [kind_named(part.form)]
        return getattr(self, "infer_" + part.form)(part, scope, due, *part.parts)

    def infer_var(self, part, scope, due, name):
        if name.text not in scope:
            self.unknown("variable", name, scope)
        return [scope.get(name.text, (None,))[0]]

    def infer_operation(self, part, scope, due, sign, left, right):
        for side, which in ((left, "left"), (right, "right")):
            self.wanted(kind_named("Int"), self.infer(side, scope), side, f"the {which} side of {sign.text}")
        return [kind_named("Bool" if sign.text in ("==", "<") else "Int")]

    def infer_tuple(self, part, scope, due, parts):
        if due == 1:
            self.say("wrong type", part.place, "one value is due: parts are what a function gives, or what let (x, y) = .. takes")
        elif due and due != len(parts):
            self.say("wrong count", part.place, f"{due} parts are due; here are {len(parts)}")
        return [self.infer(inner, scope) for inner in parts]

    def infer_call(self, part, scope, due, name, kinds, given):
        if name.text in self.named:
            variables, parameters, results = self.named[name.text]
            known = self.type_arguments(name, variables, kinds)
            self.arguments(scope, name, "argument", parameters, known, given)
            if due == 1 and len(results) > 1:
                names = ", ".join("xyzuvwab"[: len(results)])
                self.say("wrong type", part.place, f"{name.text} gives {len(results)} parts: let ({names}) = {name.text} .. in ..")
            return [kind.filled(known) for kind in results]
        if name.text in scope:
            self.say("unknown name", name.place, f"{name.text} is a variable, and no function that takes arguments")
        elif name.text == "main":
            self.say("unknown name", name.place, "main cannot be called")
        else:
            self.unknown("function", name, self.named)
        for argument in given:
            self.infer(argument, scope)
        return [None] * (due or 1)

    def infer_make(self, part, scope, due, name, kinds, given):
        if name.text not in self.constructors:
            self.unknown("constructor", name, self.constructors)
            return [self.infer(argument, scope) for argument in given] and [None]
        owner, fields = self.constructors[name.text]
        variables = self.types[owner].variables
        known = self.type_arguments(name, variables, kinds)
        self.arguments(scope, name, "field", fields, known, given)
        return [kind_named(owner, given=[kind_named(variable, "var") for variable in variables]).filled(known)]

    def type_arguments(self, name, variables, kinds):
        """What stands for the type variables of a name."""
        self.types_known(kinds)
        if len(variables) != len(kinds):
            due = [kind_named(variable) for variable in variables]
            self.say("wrong count", name.place, f"{name.text} has {count_note(due, 'type variable', len(kinds))}, in brackets behind it")
        return dict(zip(variables, kinds))

    def arguments(self, scope, name, thing, kinds, known, given):
        if len(kinds) != len(given):
            verb = "takes" if thing == "argument" else "has"
            self.say("wrong count", name.place, f"{name.text} {verb} {count_note(kinds, thing, len(given))}")
        found = [self.infer(argument, scope) for argument in given]
        for place, (kind, due, part) in enumerate(zip(found, kinds, given) if len(kinds) == len(given) else (), 1):
            self.wanted(due.filled(known), kind, part, f"{thing} {place} of {name.text}")

    def infer_let(self, part, scope, due, names, value, body):
        return self.infer_all(body, self.bind_all(scope, names, self.taken(scope, names, value)), due)

    def infer_par(self, part, scope, due, names, value, others, second, body):
        left, right = self.taken(scope, names, value), self.taken(scope, others, second)
        return self.infer_all(body, self.bind_all(self.bind_all(scope, names, left), others, right), due)

    def taken(self, scope, names, value):
        """The types of what the names of a binding take."""
        found = self.infer_all(value, scope, 1 if len(names) == 1 else ANY)
        if len(names) > 1 and found == [None]:
            return []
        if len(names) > 1 and len(found) == 1:
            self.say("wrong type", value.place, f"{len(names)} names take a part each, and this is one value")
        elif len(names) > 1 and len(found) != len(names):
            self.say("wrong count", names[0].place, f"{len(found)} parts stand behind the =; here are {counted(len(names), 'name')}")
        return found

    def bind_all(self, scope, names, kinds):
        for place, name in enumerate(names):
            scope = self.bind(scope, name, kinds[place] if place < len(kinds) else None)
        return scope

    def infer_if(self, part, scope, due, test, yes, no):
        self.wanted(kind_named("Bool"), self.infer(test, scope), test, "the test of an if")
        first = self.infer_all(yes, scope, due)
        return self.alike(part, (yes, first), (no, self.infer_all(no, scope, due)), "both parts of an if have one type")

    def infer_case(self, part, scope, due, name, arms):
        (kind,) = self.infer_var(part, scope, 1, name)
        owner = kind.name.text if kind else None
        if owner in ("Int", "Bool"):
            self.say("wrong type", name.place, f"{name.text} is {article(owner)} {owner}: a case is on a value of a data type; use if")
        elif kind and kind.name.kind == "var":
            self.say("wrong type", name.place, f"nothing is known of a value of type {owner}: a case is on one of a data type")
        data = self.types.get(owner, Data([], []))
        if owner in self.types:
            self.arms(part.place, owner, data.made, [con for con, _, _ in arms])
        known, found, first = dict(zip(data.variables, kind.given if kind else ())), None, None
        for con, names, body in arms:
            _, fields = self.constructors.get(con.text, (None, []))
            if con.text not in self.constructors:
                self.unknown("constructor", con, self.constructors)
            elif len(fields) != len(names):
                self.say("wrong count", con.place, f"{con.text} has {count_note(fields, 'field', len(names))}")
            kinds = [field.filled(known) for field in fields] if len(fields) == len(names) else []
            types_here = self.infer_all(body, self.bind_all(scope, names, kinds), due)
            if found:
                found = self.alike(part, (first, found), (body, types_here), "all arms of a case have one type")
            first, found = first or body, found or types_here
        return found

    def alike(self, part, first, second, where):
        """Two ways, with the types of what they give, which have to be the same: what they give then. Where both end the function and the second one gives
        what is declared, the first one is to blame."""
        (body, found), (other, types_here) = first, second
        given, due = ([kind and kind.text for kind in kinds] for kinds in (found, self.results))
        if id(part) not in self.ends or given == due or None in given or [kind and kind.text for kind in types_here] != due:
            self.all_wanted(found, types_here, other, where)
            return found
        self.say("wrong type", other.place, f"{self.gives} gives {', '.join(due)}, as this does; what stands before it gives {', '.join(given)}: {where}")
        self.marks.setdefault(("wrong type", other.place), body.place)
        return self.results

    def arms(self, place, owner, due, heads):
        """What is wrong with the constructors of arms: some are missing, of another type, or there twice."""
        there = [con.text for con in heads]
        missing = [con for con in due if con not in there]
        others = [con for con in heads if con.text not in due]
        twice = [con for at, con in enumerate(heads) if con.text in there[:at]]
        notes = []
        if missing:
            notes.append(f"there is no arm for {listed(missing)}")
        if others:
            notes.append(f"{listed(con.text for con in others)} {'is' if len(others) == 1 else 'are'} of another type than {owner}")
        if twice:
            names = sorted({con.text for con in twice})
            notes.append(f"{listed(names)} {'has' if len(names) == 1 else 'have'} two arms")
        if notes:
            self.say("wrong arms", place, "; ".join(notes))
            if others or twice:
                self.marks.setdefault(("wrong arms", place), min(con.place for con in others + twice))


# -- limits ------------------------------------------------------------------------------------------------------------------------


def limit_note(source, place):
    """Which limit a source is over at a place: by the token there, and those of its declaration in front of it."""
    tokens = tokens_of(source)
    at = next(number for number, token in enumerate(tokens) if token.place >= place)
    begun = max(number for number in range(at + 1) if tokens[number].kind in ("data", "fun", "main"))
    front, token, behind = tokens[begun:at], tokens[at], tokens[at + 1]
    if front[0].kind == "data":
        return data_limit(front, token)
    if len(front) == 1:
        return "a program has at most 1,000 functions"
    if "=" not in [one.kind for one in front]:
        return head_limit(front, token)
    if behind.kind == "[":
        return COPIES
    if behind.kind == "=" or front[-1].kind in (",", "par") or behind.kind == "," and token.kind == "var":
        return "a binding has at most 8 names, and a function 200 variables"
    if token.kind == "var" and is_field(front):
        return "a function has at most 200 variables"
    return "a function has at most 2,000 expressions: give a part of it a function of its own"


COPIES = "the types that are written out have at most 64 words, and all copies together 200 constructors and 1,000 functions"


def data_limit(front, token):
    if "=" not in [one.kind for one in front]:
        return "a declaration has at most 8 type variables"
    if front[-1].kind in ("=", "|"):
        return "a program has at most 200 constructors"
    fields, deep = 0, 0
    for one in front[::-1]:
        deep += (one.kind == ")") - (one.kind == "(")
        if one.kind in ("=", "|"):
            break
        fields += deep == 0
    return "a constructor has at most 8 fields: give some of them a type of their own" if fields > 8 else COPIES


def head_limit(front, token):
    """Of a function's head: in its brackets, a parameter, or the parts of its result."""
    if front[-1].kind == "(" and token.kind == "var":
        return "a function has at most 200 variables, parameters too"
    if token.kind == "var" and "[" in [one.kind for one in front] and "]" not in [one.kind for one in front]:
        return "a declaration has at most 8 type variables"
    return "a function gives at most 8 parts" if front[-1].kind == "," else COPIES


def is_field(front):
    """Whether a name behind these is a field that an arm names."""
    while front and front[-1].kind == "var":
        front = front[:-1]
    return len(front) > 1 and front[-1].kind == "Con" and front[-2].kind in ("{", ";")
