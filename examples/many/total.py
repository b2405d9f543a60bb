#!/usr/bin/env python3
"""total.py OUT: adds what `count.gib` gave of many documents, by `total.gib`, and prints the total. GIB names the program `gib`.

Only results whose row says status 0 are added. A thousand go into one run; totals are added again until one is left.
"""

import os
import sys
import tempfile

import command
import table

SOURCE = os.path.join(command.HERE, "total.gib")
GROUP = 1000


def added(counts):
    """The total of some counts, as text."""
    with tempfile.NamedTemporaryFile(prefix="gib-many-") as packed:
        text = "".join(f"(More {count} " for count in counts) + "None" + ")" * len(counts)
        command.pack(SOURCE, text, packed.name)
        return command.printed("run", SOURCE, packed.name)


def main():
    if len(sys.argv) != 2:
        sys.exit("usage: total.py OUT")
    counts = []
    for name, row in sorted(table.read_table(os.path.join(sys.argv[1], "table.tsv")).items()):
        if row.status == "0":
            with open(os.path.join(sys.argv[1], "made", os.path.splitext(name)[0] + ".txt"), encoding="ascii") as file:
                counts.append(file.read().strip())
    while len(counts) != 1:
        counts = [added(counts[at : at + GROUP]) for at in range(0, len(counts), GROUP)] or [added([])]
    print(counts[0])


if __name__ == "__main__":
    main()
