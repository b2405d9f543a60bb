#!/usr/bin/env python3
"""pieces.py apart FOLDER: reads what `cut.gib` printed and makes a packed file of each piece, numbered in order.
pieces.py together FOLDER: prints the pieces of a folder in order, as the text of the input of `join.gib`.

Pieces stand in a list, `(Piece FIRST (Piece SECOND NoPiece))`. GIB names the program `gib`.
"""

import os
import re
import sys

import command

# A source whose main takes a document: a piece is one.
SOURCE = os.path.join(command.HERE, "trim.gib")
HEAD = "(Piece "


def end_of(text, start):
    """Where the value that begins at `start` ends: a name alone, or what stands in parentheses."""
    depth = 0
    for sign in re.compile(r"[()]|\w+(?=[ )])").finditer(text, start):
        depth += {"(": 1, ")": -1}.get(sign[0], 0)
        if depth == 0:
            return sign.end()
    sys.exit(f"pieces: the text ends in the value at {start}")


def texts_of(text):
    """The texts of the pieces of a list."""
    at = 0
    while text.startswith(HEAD, at):
        start = at + len(HEAD)
        end = end_of(text, start)
        yield text[start:end]
        at = end + 1


def apart(folder):
    os.makedirs(folder, exist_ok=True)
    count = 0
    for count, text in enumerate(texts_of(sys.stdin.read()), 1):
        command.pack(SOURCE, text, os.path.join(folder, f"{count:06}.gbp"))
    print(f"{count} pieces")


def together(folder):
    files = sorted(file for file in os.listdir(folder) if file.endswith(".gbp"))
    for file in files:
        sys.stdout.write(HEAD + command.printed("show", SOURCE, os.path.join(folder, file)) + " ")
    print("NoPiece" + ")" * len(files))


def main():
    if len(sys.argv) != 3 or sys.argv[1] not in ("apart", "together"):
        sys.exit("usage: pieces.py apart|together FOLDER")
    {"apart": apart, "together": together}[sys.argv[1]](sys.argv[2])


if __name__ == "__main__":
    main()
