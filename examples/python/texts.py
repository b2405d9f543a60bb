"""Texts of values, and values as JSON: read and written. A fault in one has its place, and says what is due there."""

import json
import re

from description import SCALARS, Refused
from values import GREATEST, LEAST


class BadText(Refused):
    """A text is none of a value: the place of the first token that cannot stand, and why."""

    def __init__(self, text, place, note):
        line = text.count("\n", 0, place) + 1
        super().__init__(f"line {line}, column {place - text.rfind(chr(10), 0, place)}: {note}")
        self.place, self.note = place, note


def counted(number, thing):
    return f"{number} {thing}" if number == 1 else f"{number} {thing}s"


def listed(things, last="and"):
    things = list(things)
    return f" {last} ".join(filter(None, [", ".join(things[:-1]), *things[-1:]]))


def due_value(schema, kind):
    """What a value of a type looks like."""
    if kind in SCALARS:
        return "a number" if kind == "Int" else "True or False"
    several = [f"({made.shown} ..)" if made.fields else made.shown for made in schema.types[kind]]
    return listed(several[:8] + ["others"] * (len(several) > 8), "or")


def number_fault(token):
    """Why a token is no number as a text has it; none where it is one."""
    if len(token) <= 18 and token.isdecimal() and token.isascii() and token[0] != "0":
        return None
    if not re.fullmatch(r"-?[0-9]+", token):
        return f"{token} is no Int: a number is due"
    if len(token) > 30 or not LEAST <= int(token) <= GREATEST:
        return f"an Int is {LEAST} to {GREATEST}"
    return None if str(int(token)) == token else f"that number is written {int(token)}"


# -- texts ---------------------------------------------------------------------------------------------------------------------

PART = re.compile(r"--[^\n]*|\s+|([()]|(?:[^()\s-]+|-(?!-))+)")


class TextSource:
    """The text of a value, which may be spread over lines and have comments."""

    def __init__(self, schema, text):
        self.schema, self.text, self.opened = schema, text, []
        self.parts = (part for part in PART.finditer(text) if part.lastindex)
        self.advance()

    def advance(self):
        """Goes on to the next token; at the end it is empty."""
        part = next(self.parts, None)
        self.place = part.start() if part else len(self.text)
        self.token = part[0] if part else ""

    def fault(self, note):
        return BadText(self.text, self.place, note if self.token else self.early())

    def early(self):
        if not self.opened:
            return f"the text is empty: {due_value(self.schema, self.schema.parameter)} is due"
        return f"the text ends too early: {counted(len(self.opened), 'constructor')} not closed"

    def field(self):
        made, count = self.opened[-1]
        return f"field {count + 1} of {made.shown}"

    def misfit(self, note):
        """The fault of a token that is no value of the type that is due."""
        return self.fault(note + (f" ({self.field()}, on level {len(self.opened) + 1})" if self.opened else ""))

    def said(self):
        """The token as it is told."""
        return self.token if self.token.isascii() else "what stands here"

    def missing(self, kind):
        if self.token == ")":
            raise self.fault(f"{self.field() if self.opened else 'a value'} is missing: {due_value(self.schema, kind)} is due")

    def taken(self):
        """A field is whole."""
        self.advance()
        if self.opened:
            self.opened[-1][1] += 1

    def scalar(self, kind):
        self.missing(kind)
        token = self.said()
        fault = number_fault(token) if kind == "Int" else None if token in ("True", "False") else f"{token} is no Bool: True or False is due"
        if fault:
            raise self.misfit(fault)
        self.taken()
        return int(token) if kind == "Int" else token == "True"

    def open(self, kind):
        self.missing(kind)
        inside = self.token == "("
        if inside:
            self.advance()
            if self.token in ("(", ")"):
                raise self.fault(
                    "the name of a constructor is due behind '('" if self.token == "(" else f"a value is missing: {due_value(self.schema, kind)} is due"
                )
        made = self.named(kind)
        if bool(made.fields) != inside:
            some = f"has {counted(len(made.fields), 'field')}, and stands in parentheses: ({made.shown} {' '.join(made.fields)})"
            raise self.misfit(f"{made.shown} {some if made.fields else 'has no fields, and stands without parentheses'}")
        if inside:
            self.advance()
            self.opened.append([made, 0])
        return made

    def named(self, kind):
        made = self.schema.by_shown[kind].get(self.token)
        if made is None:
            owner = next((f", but of {name}" for name, several in self.schema.by_shown.items() if self.token in several), "")
            raise self.misfit(f"{self.said()} is no constructor of {kind}{owner}: {due_value(self.schema, kind)} is due")
        return made

    def close(self, made):
        if made.fields:
            if self.token != ")":
                raise self.fault(f"{made.shown} has {counted(len(made.fields), 'field')}: ')' is due")
            self.opened.pop()
        self.taken()

    def end(self):
        if self.token:
            raise self.fault("the value has ended before this")


class TextSink:
    """Writes the one text of a value."""

    def __init__(self):
        self.out, self.blank = [], ""

    def text(self):
        return "".join(self.out)

    def put(self, word):
        self.out.append(self.blank + word)
        self.blank = " "

    def open(self, made):
        self.put("(" + made.shown if made.fields else made.shown)

    def scalar(self, value, kind):
        self.put(str(value))

    def close(self, made):
        if made.fields:
            self.out.append(")")


# -- JSON ----------------------------------------------------------------------------------------------------------------------

TOKEN = re.compile(r'[ \t\r\n]*(?:([\[\]{}:,])|("-?\w+")|(-?[0-9]+)(?![0-9.eE])|(true|false)\b|(\Z))', re.ASCII)

# Other programs keep numbers of JSON as doubles, which have all whole numbers up to this.
EXACT = 2**53


class JsonSource:
    """A value as JSON. `token` is the one that comes next, empty at the end, none where no token begins."""

    def __init__(self, schema, given):
        self.schema, self.given, self.end_of, self.comma = schema, given, 0, False
        self.advance()

    def advance(self):
        found = TOKEN.match(self.given, self.end_of)
        self.token = found[found.lastindex] if found else None
        self.place, self.end_of = (found.start(found.lastindex), found.end()) if found else (self.end_of, self.end_of)

    def fault(self, note):
        blanks = re.compile(r"[ \t\r\n]*").match(self.given, self.place).end()
        return BadText(self.given, blanks, note)

    def due(self, signs):
        """Takes these signs, one after another."""
        for sign in signs:
            if self.token != sign:
                raise self.fault(f"'{sign}' is due")
            self.advance()

    def set_apart(self):
        """Takes the comma in front of a field that is not the first."""
        if self.comma:
            self.due(",")

    def scalar(self, kind):
        self.set_apart()
        token = (self.token or "").strip('"') if kind == "Int" else self.token or ""
        if kind == "Bool" and token in ("true", "false"):
            value = token == "true"
        elif kind == "Int" and re.fullmatch(r"-?[0-9]{1,30}", token) and LEAST <= int(token) <= GREATEST:
            value = int(token)
        else:
            raise self.fault("true or false is due" if kind == "Bool" else "a whole number of 64 bits is due")
        self.advance()
        self.comma = True
        return value

    def open(self, kind):
        """What opens a constructor: its name, and what stands before its fields."""
        self.set_apart()
        bare = self.token != "{"
        if not bare:
            self.advance()
        token = self.token or ""
        made = self.schema.by_shown[kind].get(token[1:-1]) if token.startswith('"') else None
        if made is None or bare != (not made.fields):
            names = [f'"{it.shown}"' if not it.fields else f'{{"{it.shown}": ..}}' for it in self.schema.types[kind]]
            raise self.fault(f"a {kind} is due: {listed(names, 'or')}")
        self.advance()
        if made.fields:
            self.due(":[" if len(made.fields) > 1 else ":")
        self.comma = False
        return made

    def close(self, made):
        count = len(made.fields)
        self.due(("]" if count > 1 else "") + ("}" if count else ""))
        self.comma = True

    def end(self):
        if self.token != "":
            raise self.fault("nothing is due behind the value")


class JsonSink:
    """Writes a value as JSON; where `big` is set, numbers that are not exact everywhere as strings."""

    def __init__(self, big=False):
        self.out, self.comma, self.big = [], "", big

    def text(self):
        return "".join(self.out)

    def put(self, word, comma=", "):
        self.out.append(self.comma + word)
        self.comma = comma

    def open(self, made):
        count = len(made.fields)
        self.put(f'{{"{made.shown}": ' + "[" * (count > 1) if count else f'"{made.shown}"', "" if count else ", ")

    def scalar(self, value, kind):
        word = json.dumps(value)
        self.put(f'"{word}"' if self.big and kind == "Int" and abs(value) > EXACT else word)

    def close(self, made):
        count = len(made.fields)
        if count:
            self.out.append("]}" if count > 1 else "}")
        self.comma = ", "
