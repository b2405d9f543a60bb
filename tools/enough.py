#!/usr/bin/env python3
"""enough.py SRC INP WORKERS FORK SKIPS PROGRAM ..: prints options of `run` (of a LoCal text: of `local`) that suffice for a program on a packed file, as
`--depth D --chunks N`.
enough.py --behind COMMAND SRC INP WORDS .. -- PROGRAM ..: says behind `gib: chunks` what takes the chunks, and what suffices; WORDS are the run's options.

Both are found by the program itself: it runs until it is not too deep, and what it then drew is the length of its image. Then less depth is tried, until all
of it has taken as long as two runs. So N is what one worker draws, which is the same each time, and D the least that suffices, or where the run is long one
that suffices too.

With more workers and a program that forks N is one that suffices whatever the threads do, by the bound that is proved: status 4 comes only where
32 * N <= 32 * (o + 3) + w, with o regions that are begun, and w items that are written or stand in the input. They are counted in Python (counting.py), as
long as that takes no longer than two runs, or some seconds; else N is the most that there may be.
"""

import os
import re
import resource
import subprocess
import sys
import tempfile

ROOT = os.path.dirname(os.path.dirname(os.path.abspath(__file__)))
sys.dont_write_bytecode = True
sys.path.insert(0, os.path.join(ROOT, "examples", "python"))

from core import functions_of, lines_of  # noqa: E402
from counting import Unknown, chunks_held  # noqa: E402

DEEPEST, MOST_CHUNKS, LEAST_CHUNKS = 1_000_000, 65_536, 16
IMAGE_HEAD, CHUNK = 24, 4096
# Seconds of a processor: what is tried in any case, and what Python counts.
QUICK, COUNTING = 0.5, 5
DEEP, CHUNKS = 3, 4


class Stop(Exception):
    """Ends with a status and a line."""


def spent():
    """The seconds of a processor that all that was called took."""
    used = resource.getrusage(resource.RUSAGE_CHILDREN)
    return used.ru_utime + used.ru_stime


class Runs:
    """Runs of the program on a source and a packed file."""

    def __init__(self, source, given, words, program):
        self.source, self.given, self.words, self.program = source, given, words, program
        self.command = "local" if is_located(source) else "run"
        self.is_exact = False  # whether the least number that was found last is the least

    def ended(self, depth, chunks, *words):
        """The status of a run, where it is 0, too deep or out of chunks; else its line and status are the end."""
        told = self.call(self.command, "--depth", str(depth), "--chunks", str(chunks), *words, *self.words, "--", self.source, self.given)
        if told.returncode not in (0, DEEP, CHUNKS):
            raise Stop(told.returncode, told.stderr.strip())
        return told.returncode

    def call(self, *words):
        return subprocess.run([*self.program, *words], stdout=subprocess.DEVNULL, stderr=subprocess.PIPE, text=True)

    def core(self):
        """The functions of the program's core; of a LoCal text there is none to see."""
        if self.command == "local":
            return []
        skips = [word for word in self.words if word == "--skips"]
        told = subprocess.run([*self.program, "core", *skips, "--", self.source], stdout=subprocess.PIPE, stderr=subprocess.PIPE, text=True)
        return functions_of(told.stdout)

    def least(self, low, high, suffices, until, cost=0):
        """The least number from `low` on that suffices, where `high` does: as near as can be found up to a time, where a try takes so long."""
        while low < high and spent() + cost < until:
            middle = (low + high) // 2
            low, high = (low, middle) if suffices(middle) else (middle + 1, high)
        self.is_exact = low == high
        return high


def is_located(path):
    """Whether a file is a LoCal text: a type there has its place."""
    try:
        with open(path, encoding="latin-1") as file:
            return bool(re.search(r":\s*[A-Z]\w*\s*@\s*[a-z]", re.sub(r"--.*", "", file.read())))
    except OSError:
        return False


def first_run(runs, image):
    """A depth that is too little, one that suffices, a number of chunks that does, and the seconds that the run with these takes. Too little is mostly
    seen soon; where it is not, the most is taken at once."""
    low, depth, chunks, begun = 0, 16, 1024, spent()
    while True:
        before = spent()
        status = runs.ended(depth, chunks, *image)
        if status == 0:
            return low + 1, depth, chunks, spent() - before
        if status == CHUNKS and chunks == MOST_CHUNKS:
            raise Stop(CHUNKS, "gib: chunks")
        if status == DEEP and depth == DEEPEST:
            raise Stop(DEEP, f"gib: depth\n  calls nest deeper than {DEEPEST}: no --depth suffices")
        is_quick = spent() - begun < QUICK
        if status == CHUNKS:
            chunks = min(4 * chunks, MOST_CHUNKS) if is_quick else MOST_CHUNKS
        else:
            low, depth = depth, min((2 if is_quick else 16) * depth, DEEPEST)


def alone(runs):
    """Depth and chunks that suffice for one worker, and the seconds that a run takes."""
    begun = spent()
    with tempfile.TemporaryDirectory(prefix="gib-enough-") as room:
        image = os.path.join(room, "image")
        low, high, chunks, seconds = first_run(runs, ["--image", image] if runs.command == "run" else [])
        if runs.command == "run":
            chunks = max((os.path.getsize(image) - IMAGE_HEAD) // CHUNK, LEAST_CHUNKS)
        else:
            chunks = runs.least(LEAST_CHUNKS, chunks, lambda some: runs.ended(high, some) == 0, spent() + max(seconds, QUICK))
    # All of it takes no longer than two runs, or a moment.
    until, cost = begun + max(2 * seconds, 2 * QUICK), seconds if seconds > QUICK else 0
    return runs.least(low, high, lambda depth: runs.ended(depth, chunks) == 0, until, cost), chunks, seconds


def counted(runs, forks, seconds):
    """The chunks that suffice for workers, none where counting takes too long."""
    words = [sys.executable, os.path.join(ROOT, "tools", "counting.py"), runs.source, runs.given, str(forks), "skips" if "--skips" in runs.words else ""]
    limit = max(COUNTING, int(2 * seconds) + 1)
    told = subprocess.run(
        [*words, *runs.program], stdout=subprocess.PIPE, stderr=subprocess.DEVNULL, text=True,
        preexec_fn=lambda: resource.setrlimit(resource.RLIMIT_CPU, (limit, limit)),
    )
    if told.returncode:
        return None
    regions, items = map(int, told.stdout.split())
    return regions + 3 + items // 32 + 1


def enough(runs, workers, forks):
    """The options that suffice."""
    depth, chunks, seconds = alone(runs)
    forked = workers > 1 and forks and (runs.command == "local" or any(line.words == ["par", "fork"] for one in runs.core() for line in lines_of(one.body)))
    if forked:
        found = counted(runs, forks, seconds) if runs.command == "run" else None
        chunks = max(min(found or MOST_CHUNKS, MOST_CHUNKS), LEAST_CHUNKS)
        if found is None:
            print(f"  a bound for any schedule was not found in that time: {MOST_CHUNKS} chunks are the most that there may be", file=sys.stderr)
        elif found > MOST_CHUNKS:
            print(f"  the bound asks for {found} chunks: {MOST_CHUNKS}, the most that there may be, are not sure to suffice", file=sys.stderr)
        status = runs.ended(depth, chunks, "--workers", str(workers), "--fork", str(forks))
        if status:
            raise Stop(status, "gib: chunks")
    return f"--depth {depth} --chunks {chunks}"


# -- behind `gib: chunks` ------------------------------------------------------------------------------------------------------------

AVOIDED = 'parameters that accumulate hold none, and plain has no such limit: docs/LANGUAGE.md, "What a call costs"'


def calls_open(runs, depth, chunks, held):
    """How many calls are open where a run is out of chunks, of which each holds so many: the least depth at which it is not too deep before that; none where
    other calls nest deeper, so that this tells nothing."""

    def suffices(some):
        return runs.ended(some, chunks) == CHUNKS

    low, high = max(chunks // held - 64, 1), min(chunks // held + 2, depth)
    if not suffices(high):
        return None
    if low >= high or low > 1 and suffices(low - 1):
        low = 1
    return runs.least(low, high, suffices, spent() + 4 * QUICK)


def blamed(runs, depth, chunks):
    """Which functions hold the chunks while they are open, and how many calls are open at the end. Where these hold less than half, others took them."""
    try:
        held = chunks_held(runs.core())
    except Unknown:
        return
    most = sorted({name for count, name in held if count == held[0][0]})
    count = held[0][0] if most else 1
    opened = calls_open(runs, depth, chunks, count) if most else 0
    if opened is None or 2 * opened * count > chunks:
        names = " or ".join(f"`{name}`" for name in most[:3])
        told = f"so at most {chunks // count} can be open" if opened is None else f"{opened} calls open"
        yield f"{names}: {count} chunk{'s' * (count > 1)} for each open call, {told}"
        yield AVOIDED


def behind(command, source, given, words):
    """What there is to say of a run that ran out of chunks."""
    split = words.index("--")
    options, program = words[:split], words[split + 1 :]
    told = {"--depth": 10_000, "--chunks": 1024, "--workers": 2 if command == "trace" else 1, "--fork": 4}
    flat = [part for word in options for part in word.split("=", 1)]
    told.update((name, int(value)) for name, value in zip(flat, flat[1:]) if name in told)
    runs = Runs(source, given, [word for word in flat if word == "--skips"], program)
    yield from blamed(runs, told["--depth"], told["--chunks"])
    try:
        found = enough(runs, told["--workers"], told["--fork"])
        yield f"{found} suffice"
    except Stop as stop:
        yield f"no --chunks suffices: {MOST_CHUNKS} are the most that there may be" if stop.args[0] == CHUNKS else None


def main():
    if sys.argv[1] == "--behind":
        for line in filter(None, behind(*sys.argv[2:5], sys.argv[5:])):
            print("  " + line, file=sys.stderr)
        return
    source, given, workers, forks, skips, *program = sys.argv[1:]
    try:
        print(enough(Runs(source, given, ["--skips"] if skips else [], program), int(workers), int(forks)))
    except Stop as stop:
        line = stop.args[1]
        if stop.args[0] == CHUNKS:
            line += '\n  no --chunks suffices: docs/LANGUAGE.md has forms that take fewer ("What a call costs")'
        print(line, file=sys.stderr)
        sys.exit(stop.args[0])


if __name__ == "__main__":
    main()
