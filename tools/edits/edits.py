"""The must-fail edits that stand below tools/edits: what each changes, and the sum of what its refusal stands on.

An edit says that a function with another body breaks its contract. So its sum is of its own text, the functions that it changes, heads, contracts and bodies, and
the definitions to which these contracts lead; comments and blank lines aside. An edit that stands in no function has the whole file in their place.
"""

import fcntl
import functools
import hashlib
import importlib.machinery
import importlib.util
import os
import re

HERE = os.path.dirname(os.path.abspath(__file__))
ROOT = os.path.dirname(os.path.dirname(HERE))
FUNCTION = re.compile(r"^( *)(?:pub(?:\([a-z]+\))? )?(?:const )?fn (\w+)", re.MULTILINE)
AROUND = re.compile(r"^( *)(?:pub(?:\([a-z]+\))? )?(?:impl\b(.*)|trait (\w+).*|mod (\w+).*)$")
DIGITS = 16


def read(path):
    with open(path, encoding="utf-8") as file:
        return file.read()


@functools.cache
def believed():
    """What docs/believed is made of: it follows names from a contract to definitions."""
    path = os.path.join(ROOT, "docs", "believed")
    loader = importlib.machinery.SourceFileLoader("believed", path)
    module = importlib.util.module_from_spec(importlib.util.spec_from_loader("believed", loader))
    loader.exec_module(module)
    return module


def words_of(text):
    """A text without comments and blank lines, for sums."""
    lines = (re.sub(r"(^|\s)//.*", "", line).strip() for line in text.split("\n"))
    return "\n".join(line for line in lines if line)


class Function:
    """A function of a file: its path below the module, and where it stands."""

    def __init__(self, path, start, end):
        self.path, self.start, self.end = path, start, end


def type_named(head):
    """What the prover calls the functions of an impl by: its type, and behind that the trait's name where it is one of a trait."""
    head = head.replace("->", "")
    while (shorter := re.sub(r"<[^<>]*>", "", head)) != head:
        head = shorter
    trait, is_for, of = head.split(" where ")[0].partition(" for ")
    last = lambda name: re.findall(r"\w+", name)[-1]
    return last(of) + last(trait) if is_for else last(trait)


def around(lines, number, indent):
    """The names of the impls, traits and modules in which a line with this indent stands, by the indents of a formatted file."""
    names = []
    for line in reversed(lines[:number]):
        found = AROUND.match(line)
        if found and len(found[1]) < indent:
            indent = len(found[1])
            names.insert(0, type_named(found[2]) if found[2] is not None else found[3] or found[4])
    return names


def functions(text):
    """The functions of a file: each ends where its brace closes in its own column."""
    lines, found = text.split("\n"), []
    for match in FUNCTION.finditer(text):
        head = text[match.start() : text.index("\n", match.start())]
        if head.rstrip().endswith("}"):
            end = match.start() + len(head)
        else:
            closes = re.compile(rf"^(?:{match[1]}(\{{?\}}|fn |pub )|(?!{match[1]}) *\}})", re.MULTILINE).search(text, match.end())
            end = closes.end() if closes and (closes[1] or "").endswith("}") else match.end()
        number = text.count("\n", 0, match.start())
        found.append(Function("::".join([*around(lines, number, len(match[1])), match[2]]), match.start(), end))
    return found


class Edit:
    """An edit: the crate, its name, and the texts that it puts in place of others, each with its file."""

    def __init__(self, path, crate, root=ROOT):
        self.folder, self.crate, self.name = os.path.join(root, "crates", crate), crate, os.path.basename(path)[: -len(".edit")]
        self.text, self.pairs = read(path), []
        file = old = None
        for line in self.text.split("\n"):
            if line.startswith("file: "):
                file = line[len("file: ") :].strip()
            elif line.startswith("old: "):
                old = line[len("old: ") :]
            elif line.startswith("new:"):
                self.pairs.append((file, old, line[len("new:") :].removeprefix(" ")))

    def label(self):
        return f"{self.crate}/{self.name}"

    def at(self, file):
        return os.path.join(self.folder, file)

    def fits(self):
        """Whether each text that it replaces stands exactly once in its file."""
        return bool(self.pairs) and all(old and file_text(self.at(file)).count(old) == 1 for file, old, _ in self.pairs)

    def changed(self):
        """The functions that it changes, each with its file; the file alone where a text stands in no function."""
        found = []
        for file, old, _ in self.pairs:
            place = file_text(self.at(file)).index(old)
            found.append((file, next((each for each in file_functions(self.at(file)) if each.start <= place < each.end), None)))
        return list(dict.fromkeys(found))

    def paths(self):
        """What the prover calls the functions that it changes, or their modules."""
        paths = []
        for file, function in self.changed():
            module = os.path.splitext(os.path.relpath(file, "src"))[0].replace("/", "::")
            paths.append("::".join([self.crate, *([module] if module != "lib" else []), *([function.path] if function else [])]))
        return paths

    def applied(self):
        """The texts of the files that it changes, with the edit."""
        texts = {}
        for file, old, new in self.pairs:
            texts[file] = texts.get(file, file_text(self.at(file))).replace(old, new, 1)
        return texts

    def sum(self):
        told, stands, named = believed(), [], set()
        for file, function in self.changed():
            text = file_text(self.at(file))
            part = text[function.start : function.end] if function else text
            named |= told.named_in(file_clauses(self.at(file)), told.without_line_comments(part[: body_of(part)]))
            stands.append(words_of(part))
        return hashlib.sha256("\0".join([self.text, *stands, *definitions(named)]).encode()).hexdigest()[:DIGITS]


def body_of(text):
    """Where the body of a function begins: behind its contract."""
    found = re.search(r"^ *\{$", text, re.MULTILINE)
    return found.start() if found else len(text)


@functools.cache
def file_text(path):
    return read(path) if os.path.exists(path) else ""


@functools.cache
def file_functions(path):
    return functions(file_text(path))


@functools.cache
def file_clauses(path):
    return believed().Clauses(file_text(path))


@functools.cache
def follower():
    return believed().Following()


@functools.cache
def definition(crate, module, name):
    """What a name of definitions leads to: its text without comments, and the names in it; None for a name that is followed no further."""
    file = follower().file(crate, module)
    if not file:
        return None
    if name not in file.names:
        return ("", frozenset([file.imports[name]])) if name in file.imports else None
    text = file.text(file.names[name])
    lines = (line.strip() for line in text.split("\n"))
    return "\n".join(line for line in lines if line), frozenset(believed().named_in(file, text))


def definitions(named):
    """The definitions to which these names lead, as texts, in an order of their own."""
    due, known, texts = list(named), set(), set()
    while due:
        name = due.pop()
        if name not in known:
            known.add(name)
            text, further_names = definition(*name) or ("", ())
            texts.add(text)
            due += further_names
    return sorted(texts)


def edits_of(folder, crate, root=ROOT):
    """The edits of a folder, by name."""
    names = sorted(name for name in os.listdir(folder) if name.endswith(".edit")) if os.path.isdir(folder) else []
    return [Edit(os.path.join(folder, name), crate, root) for name in names]


def further(root=ROOT):
    """All edits below tools/edits, crate by crate."""
    folder = os.path.join(root, "tools", "edits")
    crates = sorted(name for name in os.listdir(folder) if os.path.isdir(os.path.join(folder, name)) and name.startswith("gib"))
    return {crate: edits_of(os.path.join(folder, crate), crate, root) for crate in crates}


LAST = os.path.join(HERE, "last")


class Tried:
    """What tools/edits/last says of an edit: the sum over which it was refused, at which commit, and what refused it. An edit that was never tried has no sum."""

    def __init__(self, sum, commit, why):
        self.sum, self.commit, self.why = sum, commit, why


def read_last():
    lines = (line.split(" ", 3) for line in read(LAST).splitlines() if line and not line.startswith("#"))
    return {label: Tried(sum, commit, why) for label, sum, commit, why in lines}


def record(found, labels):
    """Puts what was found of edits into tools/edits/last, and drops from it what is none of these labels. Two that do so wait for one another."""
    here = os.open(HERE, os.O_RDONLY)
    try:
        fcntl.flock(here, fcntl.LOCK_EX)
        head = "".join(line + "\n" for line in read(LAST).splitlines() if line.startswith("#"))
        tried = {label: each for label, each in {**read_last(), **found}.items() if label in labels}
        rows = (f"{label} {each.sum} {each.commit} {each.why}\n" for label, each in sorted(tried.items()))
        with open(LAST + ".new", "w", encoding="utf-8") as file:
            file.write(head + "".join(rows))
        os.replace(LAST + ".new", LAST)
    finally:
        os.close(here)


def fault(edit, tried):
    """Why an edit has to be tried, by what was found of it; None where nothing is due."""
    if not edit.fits():
        return "it does not fit its file any more"
    if tried is None:
        return "it is new"
    if tried.sum not in ("-", edit.sum()):
        return f"what it stands on has changed since {tried.commit}"
    return None
