"""LoCal texts (docs/LOCAL.md): the place of each term of the core that one makes, and which location is due at a place. Nothing here decides: it is asked of a
text in which the program has found a fault.
"""

from typing import NamedTuple

from source import Parser, tokens_of

ATOMS = ("var", "int", "True", "False")

# What is broken where a build rule is (docs/CORE.md, "Build rules").
RULES = {
    "1": "a head is begun at an empty place, for a constructor of the type that is due",
    "2": "no packed field is left in the head that was begun",
    "3": "a region is for a packed value",
    "4": "a side of a par uses a variable of the other side",
    "5": "a constructor is filled where its head was begun and each of its packed fields stands, named in their order",
    "6": "an indirection or a call that gives a packed value stands at an empty place, where no head was begun",
    "7": "a case has an arm for each constructor of the type, in declared order, with a name for each field",
    "8": "a field is used where it was reached: reach y by offset, by skip x or by end x, once, with x the field before it",
    "9": "what stands here has another type than is due, or there are too many or too few",
}


class Term(NamedTuple):
    """A term of the core: where it stands in the text, its form, and the variable that it reaches."""

    place: int
    form: str
    variable: str = ""


class State(NamedTuple):
    """What is due where a value is built: at which location, at which its next field, behind which field there is a place, and where new regions start."""

    target: str
    begun: str = ""
    field: str = ""
    last: str = ""
    starts: tuple = ()

    def places(self):
        return [place for place in (self.field, *self.starts) if place]


def due(places):
    return f"due here: {' or '.join(places)}" if places else "no location is due here"


class Reader(Parser):
    """Reads a LoCal text; `asked` is the place in it at which `note` says what is due."""

    def __init__(self, source, asked=-1):
        super().__init__(tokens_of(source))
        self.asked, self.note, self.terms, self.packed, self.owners, self.offsets = asked, None, [], {}, {}, []
        for _, _, made in self.several(("data",), self.data):
            self.packed.update((con.text, sum(kind.text not in ("Int", "Bool") for kind in fields)) for con, fields in made)
        if self.word() == "offsets":
            self.take()
            self.offsets = [con.text for con in self.several(("Con",), self.take)]
            self.take(";")
        while self.next() in ("fun", "main"):
            self.declaration()

    def word(self):
        return self.tokens[self.at].text

    def due_at(self, token, note):
        if token.place == self.asked:
            self.note = note

    def location(self, places):
        """The location behind an `@`, at which one of these places is due."""
        self.due_at(self.tokens[self.at], due([f"@ {place}" for place in places]))
        if self.word() != "@":
            return ""
        self.take()
        self.due_at(self.tokens[self.at], due(places))
        return self.take("var").text

    def declaration(self):
        if self.take().kind == "fun":
            self.take("var")
        self.several(("(",), self.parameter)
        self.take(":")
        self.type()
        target = self.location(["a name for the place of the result"]) if self.word() == "@" else ""
        self.take("=")
        self.term(State(target))
        self.take(";")

    def add(self, form, variable="", place=None):
        self.terms.append(Term(self.tokens[self.at].place if place is None else place, form, variable))

    def term(self, state):
        form = {"letregion": self.region, "letloc": self.place, "let": self.let, "reach": self.reach, "case": self.case, "if": self.choice}.get(self.word())
        if form:
            form(state)
        else:
            self.end(state)

    def region(self, state):
        self.take(), self.take("var"), self.take("in")
        self.term(state)

    def place(self, state):
        """`letloc l = start r`, `after x` or `d + K`."""
        at = self.take().place
        name = (self.take("var").text, self.take("="))[0]
        first = self.take("var")
        if first.text == "start" and self.next() == "var":
            self.take()
            state = state._replace(starts=(*state.starts, name))
        elif first.text == "after" and self.next() == "var":
            behind = f"due here: {state.last}, the field that was built last" if state.last else "no field was built: nothing stands in front"
            self.due_at(self.take("var"), behind)
            state = state._replace(field=name, last="")
        else:
            self.take("+")
            self.due_at(first, self.due_head(state, first, self.word()))
            self.add("past", place=at)
            state = state._replace(begun=self.take("Con").text, field=name)
        self.take("in")
        self.term(state)

    def due_head(self, state, location, con):
        """Where the head of a constructor is due."""
        if state.begun:
            return f"a head was begun at {state.target} already, for {state.begun}"
        if location.text == state.target and not self.packed.get(con):
            return f"{con} has no packed field, and is built at once: {con} @ {state.target} .."
        return due([state.target])

    def side(self, state):
        """A binding, and what is due behind it."""
        self.add("let")
        name = (self.take("var").text, self.take(":"))[0]
        kind = self.type()
        is_packed = kind.text not in ("Int", "Bool")
        if is_packed and self.word() != "@":
            self.due_at(kind.name, due([f"{kind.text} @ {place}" for place in state.places()]))
        target = self.location(state.places()) if self.word() == "@" else ""
        self.take("=")
        if not is_packed and self.next() == "(":
            for _ in "(a+b)":
                self.take()
            return state
        self.term(State(target, starts=tuple(start for start in state.starts if start != target)))
        if target == state.field and target:
            return state._replace(field="", last=name)
        return state._replace(starts=tuple(start for start in state.starts if start != target))

    def let(self, state):
        self.take()
        if self.next() != "par":
            state = self.side(state)
        else:
            self.add("par", place=self.take().place)
            state = self.side(state)
            self.take("and")
            if self.word() == "letloc":
                self.take(), self.take("var")
                name = self.tokens[self.at - 1].text
                self.take("="), self.take("var")
                self.due_at(self.take("var"), due([state.last]))
                self.take("in")
                state = state._replace(field=name, last="")
            state = self.side(state)
        self.take("in")
        self.term(state)

    def reach(self, state):
        at = self.take().place
        field = (self.take("var").text, self.take("var"))[0]
        how = self.take().text
        self.add("reach by offset" if how == "offset" else "reach", field, at)
        if how != "offset":
            self.take("var")
        self.take("in")
        self.term(state)

    def case(self, state):
        self.add("case")
        self.take(), self.take("var"), self.take("of", "{")
        while True:
            con, fields = self.take("Con"), self.several(("var",), self.take)
            self.owners.update((field.text, con.text) for field in fields)
            self.take("->")
            self.term(state)
            if self.next() != ";":
                break
            self.take()
        self.take("}")

    def choice(self, state):
        self.add("if")
        self.take(), self.take()
        self.take("then")
        self.term(state)
        self.take("else")
        self.term(state)

    def end(self, state):
        """`give s`, `point x @ d`, a call or a constructor."""
        head = self.take()
        if head.kind == "Con":
            if not self.packed.get(head.text):
                self.add("past", place=head.place)
            self.add("write", place=head.place)
            self.location([state.target])
            self.several(ATOMS, self.take)
            return
        self.add("call" if head.text not in ("give", "point") else head.text, place=head.place)
        self.several(ATOMS, self.take)
        if head.text != "give" and (state.target or self.word() == "@"):
            self.location([state.target] if state.target else [])


def place_note(source, place):
    """Which location is due at a place."""
    return Reader(source, place).note


def rule_note(source, rule, term):
    """The place of a term of the core in the text, and what the build rule asks for there."""
    reader = Reader(source)
    found = reader.terms[term]
    owner = reader.owners.get(found.variable)
    if rule == "8" and found.form == "reach by offset" and owner not in reader.offsets:
        return found.place, f"{owner} stores no offsets: offsets {' '.join([*reader.offsets, owner])} ; behind the types"
    return found.place, RULES.get(rule)


# Words of LoCal texts that sources take for names.
MORE_WORDS = "offsets letregion letloc reach by offset skip end give point start after".split()


def unlocated_note(source):
    """The first of what a source has and LoCal text has no form for."""
    datas, functions = Parser(tokens_of(source)).program()
    found = [(name, "has type variables, and a LoCal text no names for its copies") for name, variables, _ in datas if variables]
    for name, variables, _, results, body in functions:
        if variables:
            found.append((name, "has type variables, and a LoCal text no names for its copies"))
        if len(results) > 1:
            found.append((name, f"gives {len(results)} parts, and a LoCal text has no form for parts"))
        if name.text in MORE_WORDS:
            found.append((name, "is a word of LoCal text: give the function another name"))
        if has_parts(body):
            found.append((name, "binds several parts, and a LoCal text has no form for parts"))
    for name, note in found[:1]:
        line = source.count("\n", 0, name.place) + 1
        return f"line {line}: {name.text} {note}"
    return None


def has_parts(part):
    return part.form == "tuple" or any(map(has_parts, part.inner()))
