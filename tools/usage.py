"""Which word of a command line is none that its command takes, by the tables of the manual."""

import difflib
import os
import re

MANUAL = os.path.join(os.path.dirname(os.path.dirname(os.path.abspath(__file__))), "docs", "LANGUAGE.md")


def tables():
    """The words behind each command, and of each option the word that it takes, the least and the greatest number that this may be."""
    with open(MANUAL, encoding="utf-8") as file:
        parts = file.read().partition("\n### Commands")[2].partition("\n### Environment")[0].partition("\n### Options")
    usages = dict(re.findall(r"^\| `([a-z-]+) ?([^`]*)` \|", parts[0], re.M))
    options = {}
    for name, given, values in re.findall(r"^\| `(--\w+) ?(\w*)` \|([^|]*)\|", parts[2], re.M):
        bounds = re.fullmatch(r"([0-9,]+) to ([0-9,]+)", values.strip())
        options[name] = (given, *(int(bound.replace(",", "")) for bound in bounds.groups())) if bounds else (given,)
    return usages, options


def near(word, known):
    found = difflib.get_close_matches(word, known, 1)
    return f"; there is {found[0]}" if found else ""


def value_note(name, given, value):
    """Why a value is none that an option takes."""
    if value is None:
        return f"{name} has no {given[0]} behind it" if given[0] else None
    if not given[0]:
        return f"{name} takes no value, and {value} stands behind it"
    if len(given) == 3 and not (re.fullmatch(r"[0-9]{1,9}", value) and given[1] <= int(value) <= given[2]):
        return f"{name} {value}: a number from {given[1]:,} to {given[2]:,} is due"
    return None


def usage_note(words):
    """The first word of a command line that its command does not take, and why; or what is missing."""
    usages, options = tables()
    files, seen, rest = [], set(), list(words)
    while rest:
        word = rest.pop(0)
        if word == "--":
            files += rest
            break
        if not word.startswith("-") or word == "-":
            files.append(word)
            continue
        name, equals, value = word.partition("=")
        usage = usages.get(files[0] if files else "", "")
        if name not in options or name + "]" not in usage and name + " " not in usage:
            return f"{files[0] if files else 'gib'} takes no {name}{near(name, re.findall(r'--[a-z0-9]+', usage))}"
        if name in seen:
            return f"{name} stands twice"
        seen.add(name)
        value = value if equals else rest.pop(0) if options[name][0] and rest else None
        note = value_note(name, options[name], value)
        if note:
            return note
    return files_note(files, usages)


def files_note(files, usages):
    if not files or files[0] not in usages:
        return f"there is no command {files[0]}{near(files[0], usages)}" if files else None
    names = re.sub(r"\[--[^]]*\]", "", usages[files[0]]).split()
    due, given = [name for name in names if name[0] != "["], files[1:]
    if len(given) < len(due):
        return f"there is no {due[len(given)]}" + (f" behind {given[-1]}" if given else "")
    if len(given) > len(names):
        return f"{files[0]} takes no {given[len(names)]} behind {(files[:1] + given)[len(names)]}"
    return None
