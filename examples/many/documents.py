#!/usr/bin/env python3
"""documents.py FOLDER COUNT [SEED]: makes a folder of packed documents, numbered from 0. The same words make the same documents, and
a greater count only more of them.

Of a hundred, some 80 are notes (1 to 20 blocks), 17 articles (50 to 400) and 3 books (2,000 to 8,000), with sections in sections.
GIB names the program `gib`, which packs them.
"""

import os
import random
import runpy
import sys
from concurrent.futures import ThreadPoolExecutor

import command

# A source whose main takes a document.
SOURCE = os.path.join(command.HERE, "count.gib")

# The example that makes one large document knows how a document is spelled.
document = runpy.run_path(os.path.join(command.HERE, "..", "large"))["document"]

# Of a hundred documents so many, and the least and greatest number of their blocks.
KINDS = [(80, 1, 20), (17, 50, 400), (3, 2000, 8000)]


def name_of(number):
    """The file of a document: a thousand stand in one folder."""
    return os.path.join(f"{number // 1000:06}", f"{number:09}.gbp")


def text_of(number, seed):
    chance = random.Random(f"{seed} {number}")
    _, least, most = chance.choices(KINDS, [kind[0] for kind in KINDS])[0]
    return document(chance.randint(least, most), chance)


def put(number, seed, folder):
    path = os.path.join(folder, name_of(number))
    os.makedirs(os.path.dirname(path), exist_ok=True)
    command.pack(SOURCE, text_of(number, seed), path)


def main():
    if len(sys.argv) not in (3, 4) or not all(word.isdecimal() for word in sys.argv[2:]):
        sys.exit("usage: documents.py FOLDER COUNT [SEED]")
    folder, count, seed = sys.argv[1], int(sys.argv[2]), sys.argv[3] if len(sys.argv) == 4 else "1"
    with ThreadPoolExecutor(os.cpu_count()) as pool:
        list(pool.map(lambda number: put(number, seed, folder), range(count)))


if __name__ == "__main__":
    main()
