"""The table of a run: one line for each file, its fields set apart by tabs, the last line of a name being the one that holds."""

import os

from gib_work import Row

HEAD = "\t".join(Row._fields)


def line_of(row):
    return "\t".join(row) + "\n"


def read_table(path):
    """The rows of a table by name. Of a run that was cut off the last line may be torn: it counts for nothing."""
    rows = {}
    try:
        with open(path, encoding="utf-8", errors="surrogateescape", newline="\n") as file:
            for line in file:
                fields = line[:-1].split("\t")
                if line.endswith("\n") and len(fields) == len(Row._fields) and line[:-1] != HEAD:
                    rows[fields[0]] = Row(*fields)
    except FileNotFoundError:
        pass
    return rows


def write_table(path, rows):
    """Writes a table whole, ordered by name, in the place of the one that stood there."""
    with open(path + ".new", "w", encoding="utf-8", errors="surrogateescape", newline="\n") as file:
        file.write(HEAD + "\n")
        file.writelines(line_of(rows[name]) for name in sorted(rows))
    os.replace(path + ".new", path)


def tell(rows):
    """Prints each file that failed by name, with its status and line. Answers how many these are."""
    failed = [row for _, row in sorted(rows.items()) if row.status != "0"]
    for row in failed:
        print(f"{row.name}: status {row.status}: {row.line}")
    return len(failed)
