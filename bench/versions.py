"""What it costs to read a packed file of version 2, whose description of ten types is compared, over one of version 1 with the same payload.

Instructions are counted by valgrind's callgrind where that is installed, and then decide; the least processor time of some runs is printed beside."""

import os
import shutil
import sys
import tempfile

import inputs
from measure import Missed, instructions, run_once

# Reading a file of version 2 takes at most so many times what one of version 1 takes.
MOST = 1.02

# The longest file that is read.
LONGEST = 16_777_216

RUNS = 5

# Main's type reaches all ten types.
TYPES = """data Records = None | More Record Records ;
data Record = Record Int Person Place ;
data Person = Person Name Date ;
data Name = Name Int Int ;
data Date = Date Int Int Int ;
data Place = Place Street Town Point ;
data Street = Street Int ;
data Town = Town Int State ;
data State = Here | There Int ;
data Point = Point Int Int ;

"""

# A run puts its input into so many chunks of memory at most.
CHUNKS = "16384"

# A program that reads its input and looks at one constructor of it.
FIRST = "main (records : Records) : Bool = case records of { None -> False ; More first rest -> True } ;\n"

NAMES = ("None", "More", "Record", "Person", "Name", "Date", "Place", "Street", "Town", "Here", "There", "Point")

DESCRIPTION = b"""main Records
data Records = None:0 | More:1 Record Records
data Record = Record:2 Int Person Place
data Person = Person:3 Name Date
data Name = Name:4 Int Int
data Date = Date:5 Int Int Int
data Place = Place:6 Street Town Point
data Street = Street:7 Int
data Town = Town:8 Int State
data State = Here:9 | There:10 Int
data Point = Point:11 Int Int
"""


def head(name, *numbers):
    """A constructor's tag and its numbers."""
    return bytes([NAMES.index(name)]) + b"".join(inputs.number(n) for n in numbers)


def record(n):
    person = head("Person") + head("Name", n, n + 1) + head("Date", n % 31, n % 12, n)
    town = head("Town", n) + (head("Here") if n % 2 else head("There", n))
    return head("Record", n) + person + head("Place") + head("Street", n) + town + head("Point", n, -n)


def payload(most):
    """As many records as so many bytes hold."""
    pair = 2 * len(head("More")) + len(record(0)) + len(record(1))
    return b"".join(head("More") + record(n) for n in range(2 * ((most - 1) // pair))) + head("None")


def second_version(description, bytes_of_value):
    lengths = len(bytes_of_value).to_bytes(8, "little") + len(description).to_bytes(8, "little")
    return b"GIBP\x02\0\0\0" + lengths + description + bytes_of_value


class Versions:
    """Runs commands on files of both versions in a folder of its own."""

    def __init__(self, gib, folder):
        self.gib, self.folder, self.missed = gib, folder, 0
        self.counts = shutil.which("valgrind") is not None

    def at(self, name):
        return os.path.join(self.folder, name)

    def put(self, name, data):
        with open(self.at(name), "wb") as file:
            file.write(data)

    def words(self, command, file, behind):
        return [*self.gib, command, self.at("program"), self.at(file), *(self.at(b) if b == "made" else b for b in behind)]

    def times(self, command, behind):
        """The least processor seconds on each version, where runs on both take turns and have to leave the same."""
        least, left = {}, set()
        for _ in range(RUNS):
            for file in ("first", "second"):
                seconds = run_once(self.words(command, file, behind), self.at("out"))[0]
                least[file] = min(seconds, least.get(file, seconds))
                with open(self.at("made" if "made" in behind else "out"), "rb") as result:
                    left.add(result.read())
        if len(left) != 1:
            raise Missed("another result from another version")
        return least["first"], least["second"]

    def compare(self, command, *behind):
        first, second = self.times(command, behind)
        shown = " ".join((command, *(b for b in behind if b == "--from")))
        line = f"{shown:14}{first:>10.3f} s{second:>10.3f} s{second / first:>8.3f}"
        ratio = second / first
        if self.counts:
            one, two = (instructions(self.words(command, file, behind)) for file in ("first", "second"))
            ratio = two / one
            line += f"{one:>18,}{two:>16,}{ratio:>10.6f}"
        print(line, flush=True)
        if ratio > MOST:
            self.missed += 1
            print(f"{command}: MISSED: more than {MOST} times", flush=True)


def main():
    gib = sys.argv[1].split()
    value = payload(LONGEST - len(DESCRIPTION) - 24)
    with tempfile.TemporaryDirectory(prefix="gib-versions-") as folder:
        versions = Versions(gib, folder)
        versions.put("program", (TYPES + FIRST).encode())
        versions.put("first", inputs.packed(value))
        versions.put("second", second_version(DESCRIPTION, value))
        print(f"{len(value):,} bytes of payload, {len(DESCRIPTION)} of description; the least of {RUNS} times each")
        print(f"{'':14}{'version 1':>12}{'version 2':>12}{'ratio':>8}" + (f"{'instructions':>18}{'':>16}{'ratio':>10}" if versions.counts else ""))
        for command in (("plain",), ("run", "--chunks", CHUNKS), ("pack", "made", "--from"), ("show",)):
            try:
                versions.compare(*command)
            except Missed as missed:
                versions.missed += 1
                print(f"{command[0]}: MISSED: {missed}", flush=True)
    print(f"{versions.missed} missed")
    sys.exit(1 if versions.missed else 0)


if __name__ == "__main__":
    main()
