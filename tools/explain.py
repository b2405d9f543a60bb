#!/usr/bin/env python3
"""What more there is to say of a fault that the program has told. The script `gib` calls this behind the program's line, and shows what it prints.

    explain.py source SRC PLACE KIND PROGRAM ..   a fault in a source; PROGRAM is asked which tokens it would take at PLACE
    explain.py located SRC PLACE KIND             a fault in a LoCal text
    explain.py rule SRC TERM RULE                 a build rule that the core of a LoCal text breaks
    explain.py text SRC TXT                       a fault in the text of a value
    explain.py packed SRC FILE                    a packed file of other types, or a file that is not packed
    explain.py unlocated SRC                      a source whose core has no LoCal text
    explain.py usage WORD ..                      words that no command takes

It decides nothing: where it finds nothing to say, or fails, it prints nothing, with status 1.
"""

import os
import re
import subprocess
import sys
import tempfile
from concurrent.futures import ThreadPoolExecutor
from itertools import zip_longest
from typing import NamedTuple, Optional

# Whether lines for an editor are asked for, in place of those for a person.
BY_LINE = os.environ.get("GIB_EXPLAIN") == "line"
ROOT = os.path.dirname(os.path.dirname(os.path.abspath(__file__)))
sys.dont_write_bytecode = True
sys.path.insert(0, os.path.join(ROOT, "examples", "python"))

from description import Schema  # noqa: E402
from faults import Program, limit_note  # noqa: E402
from gbp import MAGIC, opened  # noqa: E402
from located import place_note, rule_note, unlocated_note  # noqa: E402
from source import OPERATIONS, SIGNS, TYPES, WORDS, Parser, Token, tokens_of  # noqa: E402
from texts import BadText, TextSource, listed  # noqa: E402
from usage import usage_note  # noqa: E402
from values import GREATEST, convey  # noqa: E402

# -- tokens that are due -----------------------------------------------------------------------------------------------------------

# What several tokens are together.
GROUPS = [
    ({"var", "Con", "int", "True", "False", "(", "let", "if", "case"}, "an expression"),
    ({"var", "Con", "int", "True", "False", "("}, "an argument (a name, a number or '(')"),
    ({"Int", "Bool", "Con", "var", "("}, "a type"),
    (set(OPERATIONS), "an operation"),
]
SAMPLES = {"var": "x", "Con": "X", "int": "0"}
SHOWN = {"var": "a name", "Con": "a name with a capital letter", "int": "a number"}

# A source that is longer in front of its fault is not tried token by token.
LONGEST = 200_000


def fits(program, front, token, room):
    """Whether the program would go on with a token at the end of a text, by where it then finds the fault."""
    path = os.path.join(room, f"{(WORDS + SIGNS + list(SAMPLES)).index(token)}.gib")
    with open(path, "w", encoding="ascii") as file:
        file.write(f"{front}\n{SAMPLES.get(token, token)}\n")
    told = subprocess.run([*program, "check", path], capture_output=True, text=True, timeout=10).stderr
    found = re.search(r": (?:syntax|nested too deep) at ([0-9]+)$", told.strip())
    return told.startswith("gib: source: ") and not (found and int(found[1]) <= len(front) + 1) or not told


def due_tokens(program, front):
    """All tokens that may stand behind a text, as the program itself says."""
    every = WORDS + SIGNS + list(SAMPLES)
    with tempfile.TemporaryDirectory(prefix="gib-explain-") as room, ThreadPoolExecutor(4) as pool:
        taken = pool.map(lambda token: fits(program, front, token, room), every)
        return {token for token, fit in zip(every, taken) if fit}


def due_line(due):
    """A line of what is due."""
    told, left = [], set(due)
    for group, name in GROUPS:
        if group <= left:
            told.append(name)
            left -= group
    told += [SHOWN.get(token) or f"'{token}'" for token in (list(SAMPLES) + SIGNS + WORDS) if token in left]
    return f"due here: {listed(told, 'or')}" if told else "nothing may stand behind main's declaration" if not due else None


# -- syntax ------------------------------------------------------------------------------------------------------------------------


class Fault(NamedTuple):
    """A token that cannot stand, those beside it, the operation in front of it in the same parentheses, what is due in its place, and of what it is a
    part: of the declaration of a type (`data`), of a function's parameter (`fun`) or main's (`main`), or of something else."""

    before: Token
    token: Token
    after: Token
    operation: str
    due: set
    part: str

    @property
    def text(self):
        return self.token.text

    def second(self):
        """How a second operation stands in parentheses of its own: that which binds closer inside."""
        closer = [sign in ("*", "quot", "rem") for sign in (self.operation, self.text)]
        looser = [sign in ("==", "<") for sign in (self.operation, self.text)]
        if closer[1] and not closer[0] or looser[0] and not looser[1]:
            return f"(a {self.operation} (b {self.text} c))"
        return f"((a {self.operation} b) {self.text} c)"


def operation_before(tokens):
    """The operation in front of the end of these tokens, in the same parentheses."""
    deep = 0
    for token in reversed(tokens):
        deep += (token.kind == ")") - (token.kind == "(")
        if deep < 0:
            break
        if deep == 0 and token.kind in OPERATIONS:
            return token.text
    return ""


def part_of(tokens):
    """Of what the end of these tokens is a part: see Fault."""
    begun = max((at for at, token in enumerate(tokens) if token.kind in ("data", "fun", "main")), default=0)
    deep, at = 0, len(tokens)
    while deep <= 0 and at > begun:
        at -= 1
        deep += (tokens[at].kind == "(") - (tokens[at].kind == ")")
    is_parameter = [token.kind for token in tokens[at : at + 3]] == ["(", "var", ":"]
    return tokens[begun].kind if tokens[begun].kind == "data" or is_parameter else ""


DECLARATION_ENDS = "each declaration ends with ';'"

# What somebody who wrote this is told: the first of these that fits. `{0}` is the token, `{1}` two operations, `{2}` what stands in front.
HINTS = [
    (lambda at: at.text in WORDS and at.due == {"var"}, "'{0}' is a word of the language, and no name"),
    (lambda at: at.text == "=" and at.before.text == "<", "there is no <=: a <= b is (if (b < a) then False else True)"),
    (lambda at: at.text in OPERATIONS and at.due == {",", ")"}, "parts are no side of an operation"),
    (lambda at: at.text == "-" and at.before.text in OPERATIONS, "there are no negative literals: -1 is (0 - 1)"),
    (lambda at: at.text in OPERATIONS and ")" in at.due and at.operation, "each operation has parentheses of its own: {1}"),
    (lambda at: at.text in OPERATIONS and ")" in at.due, "each operation has parentheses of its own: ((a {0} b) {0} c)"),
    (lambda at: at.text == "-" and "let" in at.due, "there are no negative literals: -1 is (0 - 1)"),
    (lambda at: at.text in OPERATIONS, "each operation has parentheses of its own: (a {0} b)"),
    (lambda at: at.text == "|" and at.before.text == "=", "'|' stands between two constructors, and none in front of the first one"),
    (lambda at: at.text == "|" and "|" in (at.before.text, at.after.text), "there is no ||: a || b is (if a then True else b)"),
    (lambda at: at.text == "|" and (";" in at.due or at.due == {"Con"}), "arms are set apart by ';', and none stands in front of the first one"),
    (lambda at: at.text == "," and at.part == "main", "main has one parameter: a type with both, data Both = Both Int Int"),
    (lambda at: at.text == "," and at.part == "fun", "each parameter has parentheses of its own: (x : Int) (y : Int)"),
    (lambda at: at.text == "," and at.part == "data", "fields stand side by side, without commas: Node Tree Tree"),
    (lambda at: at.text == "," and at.due == {")"}, "each operation has parentheses of its own: ((a + b), (c - d))"),
    (
        lambda at: at.text == "," and ")" in at.due and at.due & {"var", *OPERATIONS},
        "fields and arguments stand side by side, without commas: Node l r, f x y",
    ),
    (lambda at: at.text == "," and "var" in at.due, "parts stand in parentheses: (a, b)"),
    (lambda at: at.text == "->" and at.before.kind in TYPES and ")" in at.due, "no function is a value: a type is Int, Bool, Tree or (List Int)"),
    (lambda at: at.before.text == "(" and at.due == {"Con"} and at.after.text == "->", "no function is a value: a type is Int, Bool, Tree or (List Int)"),
    (
        lambda at: at.before.kind == "Con" and at.token.kind in (*TYPES, "[") and at.due <= {")", "="},
        "a type with arguments stands in parentheses, without brackets: ({2} Int)",
    ),
    (lambda at: at.text == ")" and "Bool" in at.due, "a type in parentheses has arguments, (List Int); one without has none: ({2}) is {2}"),
    (lambda at: at.token.kind == "int" and at.due == {"Con"}, "a case looks at constructors: a number is compared by if (n == {0}) then .. else .."),
    (lambda at: at.text in ("True", "False") and at.due == {"Con"}, "a case looks at constructors: a truth value is asked by if"),
    (lambda at: at.text == ";" and "in" in at.due, "a let has what it is for behind it: let x = .. in .."),
    (lambda at: at.text == "(" and at.due == {":"}, "main has one parameter: a type with both, data Both = Both Int Int"),
    (lambda at: at.text == "," and at.due == {"="}, "several names stand in parentheses: let (x, y) = .. in .."),
    (lambda at: at.text == "," and at.due == {":"}, "each parameter has parentheses of its own: (x : Int) (y : Int)"),
    (lambda at: at.text == ")" and at.due == {","}, "one name or type alone has no parentheses"),
    (lambda at: "," in at.due and at.due <= {",", ")"}, "a comma stands between two"),
    (
        lambda at: at.before.text == "(" and at.due == {"Con"} and at.part == "data",
        "fields stand side by side, each a type: Leaf Int, Node Tree Tree; a type in parentheses has arguments, (List Int)",
    ),
    (
        lambda at: at.before.text == "(" and at.due == {"Con"},
        "a type in parentheses has arguments, (List Int): parts are what a function gives, and main gives one value",
    ),
    (lambda at: at.text == "[" and "let" in at.due, "there are no lists but those of a data type: data List a = Nil | Cons a (List a)"),
    (lambda at: at.text == "main" and "let" in at.due, "main cannot be called: give a function what it does"),
    (
        lambda at: {";", "}"} <= at.due and at.text not in ("", "in", "then", "else", "of"),
        "a ';' stands between two arms: the one before this has none",
    ),
    (lambda at: at.due == {"of"}, "a case looks at a name: let y = f x in case y of { .. }"),
    (lambda at: at.text == "}" and at.before.text == ";", "a ';' stands between two arms, and none behind the last one"),
    (lambda at: {"var", "->"} <= at.due, "an arm has a name for each field, and no pattern in a pattern"),
    (lambda at: at.text in ("", "fun", "main", "data") and ";" in at.due, DECLARATION_ENDS),
    (lambda at: at.text == "data" and "fun" in at.due, "types stand first, then functions, then main"),
    (lambda at: at.text == "fun" and not at.due, "functions stand before main"),
    (lambda at: "else" in at.due, "an if has both parts: if a then b else c"),
    (lambda at: at.due == {"="}, "a let is let x = .. in ..: it names a value, without a type, and functions are declared outside"),
    (lambda at: at.text == "{" and "(" in at.due, "a case is: case x of { Leaf n -> .. ; Node left right -> .. }"),
    (lambda at: at.text == "=" and "->" in at.due, "an arm is: Leaf n -> .."),
    (lambda at: "(" in at.due and at.due <= {"(", "["}, "a parameter is (name : Type)"),
]


class Told(NamedTuple):
    """A fault: its place and kind, what there is to say of it, and the place of what is to blame, where that is another one."""

    place: int
    kind: str
    notes: list
    mark: Optional[int] = None


def syntax_told(source, place, kind, program):
    """What there is to say of the token at a place, which cannot stand there."""
    tokens = [Token("", "", 0), *tokens_of(source)]
    at = next(number for number, token in enumerate(tokens) if number and (token.place >= place or not token.text))
    before, token, after = tokens[at - 1], tokens[at], tokens[min(at + 1, len(tokens) - 1)]
    notes = [f"{repr(token.text) if token.text else 'the end of the text'} cannot stand here"]
    if place > LONGEST:
        return Told(place, kind, notes)
    fault = Fault(before, token, after, operation_before(tokens[:at]), due_tokens(program, source[:place]), part_of(tokens[:at]))
    hint = next((hint for fits, hint in HINTS if fits(fault)), None)
    if hint:
        hint = hint.replace("{0}", fault.text).replace("{1}", fault.second()).replace("{2}", before.text)
    ends = before.text and hint == DECLARATION_ENDS
    return Told(place, kind, notes + [note for note in (due_line(fault.due), hint) if note], before.place + len(before.text) if ends else None)


SIGNS_OF_TWO = {
    r"!=": "there is no !=: instead of if (a != b) then x else y write if (a == b) then y else x",
}
# What `_` stands for elsewhere, by what is in front of it.
UNNAMED = [
    (r"\b(let|par|and)\s*(\([^()]*)?$", "a let names each value, by a small letter first: what is not used has a name too, or is left out"),
    (r"\bof\s*\{\s*$|;\s*$", "each constructor has an arm of its own, Nil -> .. ; Cons first rest -> ..: none stands for the others"),
    (r"", "each field has a name, which begins with a small letter"),
]
CHARACTERS = {
    ">": "there is no >: a > b is (b < a), and a >= b is (if (a < b) then False else True)",
    "/": "there is no /: a / b is (a quot b); a comment is -- to the end of the line",
    "%": "there is no %: a % b is (a rem b)",
    "&": "there is no &&: a && b is (if a then b else False)",
    "!": "there is no !: not a is (if a then False else True)",
    '"': "there are no strings",
    "'": "a type variable is a name alone, data List a = Nil | Cons a (List a); there are no characters",
    ".": "there are no fractions, and a field is named by a case",
    "\\": "functions are declared, and are no values",
    "#": "a comment is -- to the end of the line",
}


def character_note(source, place):
    front = next((note for sign, note in SIGNS_OF_TWO.items() if re.match(sign, source[place : place + 10])), None)
    letter = source[place : place + 1]
    if letter == "_":
        return next(note for before, note in UNNAMED if re.search(before, source[:place][-2000:]))
    if source[max(place - 1, 0) : place + 1] == "=>":
        return "there is no =>: an arm is Leaf n -> .., and a >= b is (if (a < b) then False else True)"
    return front or CHARACTERS.get(letter) or ("a source has letters of ASCII alone" if not letter.isascii() else None)


def told_of(source, place, kind, program):
    """What there is to say of a fault in the bytes, tokens or syntax of a source, or over a limit."""
    if kind == "syntax":
        return syntax_told(source, place, kind, program)
    note = {
        "bad character": lambda: character_note(source, place),
        "number too large": lambda: f"the greatest number is {GREATEST}",
        "nested too deep": lambda: "expressions stand in one another on at most 200 levels: give one of them a function of its own",
        "over a limit": lambda: limit_note(source, place),
    }[kind]()
    return Told(place, kind, [note] if note else [])


# -- all faults of a source --------------------------------------------------------------------------------------------------------

UNREAD = ("syntax", "bad character", "number too large", "nested too deep")
MOST = 8
BEGUN = re.compile(r"--[^\n]*|\b(data|fun|main)\b|\w+|[^\w\s]")


def beginnings(source):
    """The places at which declarations begin: behind a semicolon, or at the beginning of a line."""
    found, last = [], ";"
    for match in BEGUN.finditer(source):
        if match[1] and (last == ";" or source[match.start() - 1 : match.start()] == "\n"):
            found.append(match.start())
        if not match[0].startswith("--"):
            last = match[0]
    return found


def without(source, place):
    """A source with blanks in the place of the declaration that ends with a place or goes on there, and the word that it begins with."""
    begun = beginnings(source)
    own = max((start for start in begun if start < place), default=0)
    end = min((start for start in begun if start > own), default=len(source))
    return source[:own] + re.sub(r"[^\n]", " ", source[own:end]) + source[end:], source[own : own + 4]


def checked(program, source):
    """The kind and place of the first fault that the program finds in a text."""
    with tempfile.TemporaryDirectory(prefix="gib-explain-") as room:
        path = os.path.join(room, "rest.gib")
        with open(path, "w", encoding="latin-1") as file:
            file.write(source)
        said = subprocess.run([*program, "check", path], capture_output=True, text=True, timeout=10).stderr
    found = re.fullmatch(r"gib: source: (.*) at ([0-9]+)\n", said)
    return (found[1], int(found[2])) if found else (None, 0)


def further_unread(source, place, program):
    """The faults of further declarations that the program cannot read, each found with those before it left out; what is left of the source then, and the names
    of the functions that are left out, none where a type is."""
    found, missing = [], set()
    while len(found) < MOST:
        rest, word = without(source, place)
        missing = None if word == "data" or missing is None else missing | functions_of(source) - functions_of(rest)
        source = rest
        kind, further = checked(program, source)
        if kind not in UNREAD or further >= len(source.rstrip()):
            break
        # What stands in a wrong place is left out itself.
        if further == place:
            place += 1
        else:
            place = further
            found.append(told_of(source, place, kind, program))
    return found, source, missing


def functions_of(source):
    return set(re.findall(r"fun\s+(\w+)", source))


def named_told(source, missing):
    """All faults in names, counts and types, by kind and place."""
    parser = Parser(tokens_of(source))
    datas, functions = parser.several(("data",), parser.data), parser.several(("fun",), parser.function)
    if parser.next() == "main":
        functions.append(parser.main())
    program = Program(source, datas, functions, missing)
    return {(kind, place): Told(place, kind, [note], program.marks.get((kind, place))) for (kind, place), note in program.notes.items()}


def source_told(source, place, kind, program):
    """What there is to say of the fault that the program has found, and of the further ones."""
    if kind not in UNREAD:
        named = named_told(source, ())
        first = named.pop((kind, place), Told(place, kind, []))
        return told_of(source, place, kind, program) if kind == "over a limit" else first, sorted(named.values())
    first = told_of(source, place, kind, program)
    further, source, missing = further_unread(source, place, program)
    return first, further + (sorted(named_told(source, missing).values()) if missing is not None else [])


# -- how it is shown ---------------------------------------------------------------------------------------------------------------

# A line shows so many letters, and where the place is far to the right so many in front of it.
WIDE, FRONT = 100, 60


def line_and_column(source, place):
    """Both counted from 1."""
    return source.count("\n", 0, place) + 1, place - source.rfind("\n", 0, place)


def marked(source, place):
    """The line of a place, and a mark under it."""
    start = source.rfind("\n", 0, place) + 1
    column = place - start
    front = column - FRONT if column >= 80 else 0
    text = source[start:].partition("\n")[0][front : front + WIDE].replace("\t", " ")
    return [re.sub(r"[^ -~]", "?", text), " " * (column - front) + "^"]


def shown(source, first, further):
    """Lines for a person: what is to say of the first fault, and a line for each further one."""
    yield from first.notes
    if first.mark is not None:
        line, column = line_and_column(source, first.mark)
        yield f"here, line {line}, column {column}:"
        yield from marked(source, first.mark)
    for other in further[:MOST]:
        line, column = line_and_column(source, other.place if other.mark is None else other.mark)
        yield f"also line {line}, column {column}: {'; '.join([other.kind, *other.notes])}"
    if len(further) > MOST:
        yield f"and {len(further) - MOST} more"


def listed_by_line(path, source, first, further):
    """A line for each fault, as editors take them."""
    for at, other in enumerate([first, *further]):
        yield from by_line(path, source, other.place if other.mark is None else other.mark, "also " * (at > 0) + other.kind, other.notes)


def source_notes(path, place, kind, program):
    """The notes for a fault of a kind at a place of a source."""
    with open(path, "rb") as file:
        data = file.read()
    if data[:4] == MAGIC:
        return [f"{path} is a packed file: the source stands before it"]
    source = data.decode("latin-1")
    first, further = source_told(source, place, kind, program)
    return listed_by_line(path, source, first, further) if BY_LINE else shown(source, first, further)


# -- texts of values ---------------------------------------------------------------------------------------------------------------


class Nowhere:
    """A sink that keeps nothing."""

    def open(self, made):
        pass

    def scalar(self, value, kind):
        pass

    def close(self, made):
        pass


def text_notes(schema, text):
    """Why the first token of a text that cannot stand cannot."""
    try:
        convey(schema.parameter, TextSource(schema, text), Nowhere())
    except BadText as fault:
        return [fault.note]
    return []


# -- packed files ------------------------------------------------------------------------------------------------------------------


def not_packed(data):
    """What a file is that is not packed."""
    if data[:4] == b"GIBI":
        return "is an image of a run"
    if re.search(rb"\bmain\s*\(", data):
        return "is a source: it stands before the input"
    return "is a text: gib pack makes a packed file of it, and gib eval takes it as it is"


def moved(told, due):
    """A note where two descriptions differ in the tags of their constructors alone."""
    if re.sub(rb":[0-9]+", b"", told) == re.sub(rb":[0-9]+", b"", due):
        yield "the same types stand at other places in the two programs: in each program of a chain the shared types stand first, in the same order"


def packed_notes(schema, path, data):
    """Why a file is not packed, or not for a program: the first line in which their types differ."""
    if data[:4] != MAGIC:
        return [f"{path} {not_packed(data)}"]
    start = 8 + 8 * data[4]
    due = start + sum(int.from_bytes(data[at : at + 8], "little") for at in range(8, start, 8))
    if data[4] in (1, 2) and due != len(data):
        return [f"its header tells of {due} bytes in all, and it has {len(data)}: it is cut off, or more was put behind it"]
    version, told, _ = opened(data)
    if version == 1:
        return ["a file of version 1 does not say which types it was packed for: it is damaged, or they are other ones than this program's"]
    pair = [text.decode("latin-1").splitlines() for text in (told, schema.description())]
    for ours, theirs in zip_longest(*pair, fillvalue="no more"):
        if ours != theirs:
            return [f"it was packed for: {ours[:200]}", f"the program takes: {theirs[:200]}", *moved(told, schema.description())]
    return ["it was packed for this program's types, and is damaged"]


def located_notes(path, place, kind):
    """Which location is due at a place of a LoCal text."""
    with open(path, encoding="latin-1") as file:
        source = file.read()
    note = place_note(source, place) if kind == "wrong place" else None
    return by_line(path, source, place, kind, [note]) if BY_LINE else [note]


def rule_notes(path, term, rule):
    """Where the term of a core stands in its LoCal text, and what the rule that it breaks asks for."""
    with open(path, encoding="latin-1") as file:
        source = file.read()
    place, note = rule_note(source, rule, term)
    if BY_LINE:
        return by_line(path, source, place, f"location rule {rule}", [note])
    line, column = line_and_column(source, place)
    return [f"{path}, line {line}, column {column}:", *marked(source, place), note]


def by_line(path, source, place, kind, notes):
    """A fault in one line, as editors take it."""
    line, column = line_and_column(source, place)
    return [f"{path}:{line}:{column}: {'; '.join(filter(None, [kind, *notes]))}"]


def notes(words):
    if words[0] == "located":
        return located_notes(words[1], int(words[2]), words[3])
    if words[0] == "rule":
        return rule_notes(words[1], int(words[2]), words[3])
    if words[0] == "usage":
        return [usage_note(words[1:])]
    if words[0] == "unlocated":
        with open(words[1], encoding="latin-1") as file:
            return [unlocated_note(file.read())]
    if words[0] == "source":
        return source_notes(words[1], int(words[2]), words[3], words[4:])
    with open(words[1], encoding="latin-1") as file:
        schema = Schema.of_source(file.read())
    with open(words[2], "rb") as file:
        data = file.read()
    if words[0] == "text":
        return text_notes(schema, data.decode("latin-1"))
    return packed_notes(schema, words[2], data)


def main():
    try:
        words = sys.argv[1:]
        told = [note for note in notes(words) if note]
    except Exception:  # what cannot be explained is not explained
        told = []
    for at, note in enumerate(told):
        is_head = words[0] == "rule" and at == 0
        print(note if is_head or BY_LINE and words[0] in ("source", "located", "rule") else "  " + note)
    sys.exit(0 if told else 1)


if __name__ == "__main__":
    main()
