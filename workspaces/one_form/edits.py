#!/usr/bin/env python3
"""edits.py FOLDER NAME..: puts these edits of definitions, of edits/, into the crate `one_form` that `check` laid out in FOLDER. Each has to be refused by
the law that it names. An edit is four fields, of which the last two may go on over several lines."""

import os
import re
import sys

HERE = os.path.dirname(os.path.abspath(__file__))


def read_edit(name):
    with open(f"{HERE}/edits/{name}.txt", encoding="utf-8") as file:
        text = file.read()
    fields = re.fullmatch(r"file: (.*)\nlaw: (.*)\nold: (.*)\nnew: (.*)\n", text, re.DOTALL)
    return fields.group(1).split("\n")[0], fields.group(3), fields.group(4)


def main():
    folder, names = sys.argv[1], sys.argv[2:]
    for name in names:
        file, old, new = read_edit(name)
        path = f"{folder}/crates/one_form/{file}"
        with open(path, encoding="utf-8") as source:
            text = source.read()
        if text.count(old) != 1:
            sys.exit(f"{name}: its old text stands {text.count(old)} times")
        with open(path, "w", encoding="utf-8") as source:
            source.write(text.replace(old, new))
        print(f"{name}: put")


main()
