"""The tokens and the tree of a source."""

import re
from typing import NamedTuple

WORDS = "data fun main let par and in if then else case of True False Int Bool quot rem".split()
SIGNS = "[ ] -> == = | ; , ( ) : { } + - * <".split()
OPERATIONS = ("+", "-", "*", "==", "<", "quot", "rem")
ATOMS = ("var", "Con", "int", "True", "False", "(")
TYPES = ("Int", "Bool", "Con", "var", "(")
# `@` is a sign of LoCal texts alone.
TOKEN = re.compile(r"--[^\n]*|[ \t\r\n]+|([a-z][A-Za-z0-9_]*)|([A-Z][A-Za-z0-9_]*)|([0-9]+)|(" + "|".join(map(re.escape, [*SIGNS, "@"])) + ")")


class Token(NamedTuple):
    """A token: `kind` is `var`, `Con` or `int`, or the word or sign itself; empty at the end of the text."""

    kind: str
    text: str
    place: int


def tokens_of(source):
    """The tokens of a source, the end of the text last. A byte that begins none ends them."""
    found, at = [], 0
    while match := TOKEN.match(source, at):
        if match.lastindex:
            text = match[0]
            kind = ("var", "Con", "int", text)[match.lastindex - 1]
            found.append(Token(text if text in WORDS else kind, text, at))
        at = match.end()
    return found + [Token("", "", len(source))]


# -- the tree --------------------------------------------------------------------------------------------------------------------


class Kind(NamedTuple):
    """A type, by its name and what stands behind it. `name` is the token of a written one."""

    name: Token
    given: tuple = ()

    @property
    def text(self):
        return f"({' '.join([self.name.text, *(kind.text for kind in self.given)])})" if self.given else self.name.text

    def filled(self, known):
        """The type with what stands for its variables, none where that is not known."""
        if self.name.kind == "var":
            return known.get(self.name.text)
        given = tuple(kind.filled(known) for kind in self.given)
        return None if None in given else Kind(self.name, given)


def kind_named(text, sort="Con", given=()):
    return Kind(Token(sort, text, 0), tuple(given))


class Node(NamedTuple):
    """An expression, by its form, its place (that of its first token, within parentheses) and its parts."""

    form: str
    place: int
    parts: tuple

    def inner(self):
        """The expressions that stand directly in it, in their order."""
        if self.form == "case":
            return [body for _, _, body in self.parts[1]]
        several = [part if isinstance(part, list) else [part] for part in self.parts]
        return [part for parts in several for part in parts if isinstance(part, Node)]


class Parser:
    """Makes the tree of a source that has no fault in its syntax."""

    def __init__(self, tokens):
        self.tokens, self.at = tokens, 0

    def next(self):
        return self.tokens[self.at].kind

    def take(self, *kinds):
        """Takes tokens of these kinds, or one of any kind. Answers the last one."""
        for kind in kinds or (self.next(),):
            token = self.tokens[self.at]
            if token.kind != kind:
                raise ValueError(token)
            self.at += 1
        return token

    def several(self, kinds, part):
        found = []
        while self.next() in kinds:
            found.append(part())
        return found

    def further(self, part):
        """Parts with a comma in front of each."""
        found = []
        while self.next() == ",":
            self.take()
            found.append(part())
        return found

    def program(self):
        """Data types (a name, variables and constructors), functions (a name, variables, parameters, results, body), and main as a function."""
        datas = self.several(("data",), self.data)
        functions = self.several(("fun",), self.function)
        return datas, [*functions, self.main()]

    def main(self):
        """Main, as a function."""
        return self.take("main"), [], *self.head_and_body([self.parameter()])

    def main_head(self):
        """Main's parameter, as a list, and what it gives; `main` is a word, which stands nowhere else."""
        self.at = next(at for at, token in enumerate(self.tokens) if token.kind == "main") + 1
        return [self.parameter()], (self.take(":"), self.results())[1]

    def data(self):
        self.take("data")
        name, variables, made = self.take("Con"), self.several(("var",), self.take), []
        while not made or self.next() == "|":
            self.take()
            made.append((self.take("Con"), self.several(TYPES, self.type)))
        self.take(";")
        return name, variables, made

    def function(self):
        self.take("fun")
        return self.take("var"), self.in_brackets(("var",), self.take), *self.head_and_body(self.several(("(",), self.parameter))

    def in_brackets(self, kinds, part):
        """What stands in brackets, where there are some."""
        if self.next() != "[":
            return []
        self.take()
        found = self.several(kinds, part)
        self.take("]")
        return found

    def type(self):
        if self.next() != "(":
            return Kind(self.take())
        self.take()
        kind = Kind(self.take("Con"), tuple(self.several(TYPES, self.type)))
        self.take(")")
        return kind

    def results(self):
        """What a function gives: a type, or those of its parts."""
        if self.next() != "(" or self.tokens[self.at + 1].kind == "Con" and self.tokens[self.at + 2].kind != ",":
            return [self.type()]
        self.take()
        found = [self.type(), *self.further(self.type)]
        self.take(")")
        return found

    def parameter(self):
        self.take("(")
        name, kind = self.take("var"), (self.take(":"), self.type())[1]
        self.take(")")
        return name, kind

    def head_and_body(self, parameters):
        results = (self.take(":"), self.results())[1]
        body = (self.take("="), self.expression())[1]
        self.take(";")
        return parameters, results, body

    def expression(self):
        form = {"let": self.let, "if": self.choice, "case": self.case}.get(self.next())
        return form(self.take().place) if form else self.application()

    def let(self, place):
        if self.next() != "par":
            names, value = self.named()
            return Node("let", place, (names, value, (self.take("in"), self.expression())[1]))
        self.take()
        left, right = self.named(), (self.take("and"), self.named())[1]
        return Node("par", place, (*left, *right, (self.take("in"), self.expression())[1]))

    def named(self):
        return self.names(), (self.take("="), self.expression())[1]

    def names(self):
        """The names of a binding: one, or several in parentheses."""
        if self.next() != "(":
            return [self.take("var")]
        self.take()
        found = [self.take("var"), *self.further(lambda: self.take("var"))]
        self.take(")")
        return found

    def choice(self, place):
        test = self.expression()
        yes = (self.take("then"), self.expression())[1]
        return Node("if", place, (test, yes, (self.take("else"), self.expression())[1]))

    def case(self, place):
        name, arms = self.take("var"), []
        self.take("of", "{")
        while not arms or self.next() == ";":
            if arms:
                self.take()
            con, names = self.take("Con"), self.several(("var",), self.take)
            arms.append((con, names, (self.take("->"), self.expression())[1]))
        self.take("}")
        return Node("case", place, (name, arms))

    def application(self):
        head = self.tokens[self.at]
        if head.kind not in ("var", "Con"):
            return self.atom()
        self.take()
        kinds = self.in_brackets(TYPES, self.type)
        given = self.several(ATOMS, self.atom)
        if head.kind == "var" and not given:
            return Node("var", head.place, (head,))
        return Node("call" if head.kind == "var" else "make", head.place, (head, kinds, given))

    def atom(self):
        token = self.take()
        if token.kind in ("var", "int", "True", "False"):
            return Node({"var": "var", "int": "Int"}.get(token.kind, "Bool"), token.place, (token,))
        if token.kind == "Con":
            return Node("make", token.place, (token, self.in_brackets(TYPES, self.type), []))
        inside = self.expression()
        if self.next() == ",":
            inside = Node("tuple", token.place, ([inside, *self.further(self.expression)],))
        elif self.next() in OPERATIONS:
            sign = self.take()
            inside = Node("operation", token.place, (sign, inside, self.application()))
        self.take(")")
        return inside
