#!/usr/bin/python3
"""one.py SOURCE FOLDER OUT [options] --name NAME: what a recipe of the Makefile calls. Does the work on one file, if its sums changed, and puts
its row into OUT/rows/NAME.tsv. Without a name, makes OUT/table.tsv of these rows and tells the files that failed, with status 1 where some did;
the rows of those that may end otherwise next time go, so that make tries them again.
"""

import os
import sys

import gib_work
import table
import words


def row_path(work, name):
    return os.path.join(work.out, "rows", name + ".tsv")


def do(work, name):
    """Does the work on one file, or makes its row new where that still holds."""
    asked, path = gib_work.asked_of(work), row_path(work, name)
    old = table.read_table(path).get(name)
    if old and gib_work.is_done(work, asked, old):
        os.utime(path)
        return
    os.makedirs(os.path.dirname(path), exist_ok=True)
    table.write_table(path, {name: gib_work.do_file(work, asked, name)})


def collect(work):
    """Makes the table of all rows. Answers how many files failed."""
    rows = {}
    for at, _, files in os.walk(os.path.join(work.out, "rows")):
        for file in files:
            rows.update(table.read_table(os.path.join(at, file)))
    gone = [name for name in rows if not os.path.exists(gib_work.input_of(work, name))]
    for name in gone:
        del rows[name]
        gib_work.remove(gib_work.result_of(work, name))
    again = [name for name, row in rows.items() if row.status not in gib_work.FINAL]
    for name in gone + again:
        gib_work.remove(row_path(work, name))
    table.write_table(os.path.join(work.out, "table.tsv"), rows)
    failed = table.tell(rows)
    print(f"{len(rows)} files: {failed} failed")
    return failed


def main():
    parser = words.common_parser(__doc__)
    parser.add_argument("--name")
    given = parser.parse_args()
    work = words.work_of(given)
    if given.name:
        do(work, given.name)
    elif collect(work):
        sys.exit(1)


if __name__ == "__main__":
    main()
