#!/usr/bin/env python3
"""stats.py SRC INP WORDS .. -- PROGRAM ..: runs a program as `gib run` does, and says on standard error what that took; each line says where its number comes
from. What could not be measured is left out.
"""

import os
import subprocess
import sys
import tempfile
import time

ROOT = os.path.dirname(os.path.dirname(os.path.abspath(__file__)))
sys.dont_write_bytecode = True
sys.path.insert(0, os.path.join(ROOT, "examples", "python"))

from core import with_offsets  # noqa: E402
from description import Refused, Schema  # noqa: E402
from enough import Runs, Stop, alone  # noqa: E402
from image import Image, Torn  # noqa: E402

# An image is looked at item by item where it has at most so many bytes.
LARGEST = 1 << 24


class Ran:
    """A run that was measured: its status, the seconds to the first byte that it printed and to its end, and those of processors."""

    def __init__(self, words):
        begun, self.first = time.perf_counter(), None
        process = subprocess.Popen(words, stdout=subprocess.PIPE)
        while piece := os.read(process.stdout.fileno(), 1 << 16):
            if self.first is None:
                self.first = time.perf_counter() - begun
            sys.stdout.buffer.write(piece)
        sys.stdout.buffer.flush()
        _, status, used = os.wait4(process.pid, 0)
        process.returncode = self.status = os.waitstatus_to_exitcode(status)
        self.last, self.processors = time.perf_counter() - begun, used.ru_utime + used.ru_stime


def without(words, *names):
    """Words without these options and their values."""
    left, words = [], iter(words)
    for word in words:
        if word.partition("=")[0] not in names:
            left.append(word)
        elif "=" not in word:
            next(words, None)
    return left


def option(words, name, default):
    """The number that an option has among words."""
    flat = [part for word in words for part in word.split("=", 1)]
    return next((int(value) for word, value in zip(flat, flat[1:]) if word == name), default)


def of_image(runs, path):
    """Chunks that were drawn, and bytes that were put."""
    size = os.path.getsize(path) - 24
    yield "chunks drawn", f"{size // 4096:,}", "the image"
    if size <= LARGEST:
        with open(path, "rb") as file, open(runs.source, encoding="latin-1") as source:
            image = Image(file.read(), Schema.of_source(source.read()), set() if "--skips" in runs.words else with_offsets(runs.core()))
        put = sum(size for chunk in image.chunks() for _, kind, size in image.items(chunk) if kind != "free")
        yield "bytes put", f"{put:,}", "the image"


def of_journal(runs, words, room):
    """Forks and steals of a trace."""
    path = os.path.join(room, "journal")
    if runs.call("trace", *words, "--", runs.source, runs.given, path).returncode == 0:
        with open(path, encoding="ascii") as file:
            told = [line.split()[0] for line in file]
        yield "forks, steals", f"{told.count('fork'):,}, {told.count('steal'):,}", "the journal of a trace with the same words, a run of its own"


def of_time(runs, words, ran):
    """The seconds of the run. Where a call ends the run at once, all of it was to load."""
    begun = time.perf_counter()
    loaded = runs.call("run", *without(words, "--depth"), "--depth", "1", "--", runs.source, runs.given).returncode == 3
    load = time.perf_counter() - begun
    if loaded and ran.first is not None and load < ran.first:
        yield "seconds to load", f"{load:.3f}", "a run with --depth 1"
        yield "seconds to run", f"{ran.first - load:.3f}", "from there to the first byte that is printed"
    elif ran.first is not None:
        yield "seconds to load, run", f"{ran.first:.3f}", "to the first byte that is printed"
    if ran.first is not None:
        yield "seconds to print", f"{ran.last - ran.first:.3f}", "from there to the end"
    yield "seconds of processors", f"{ran.processors:.3f}", "the system, for all of the run"


def rows(runs, words, ran, image, room):
    """What was measured: its name, the figure, and where that comes from."""
    yield from of_time(runs, words, ran)
    if ran.status == 0:
        depth, _, _ = alone(runs)
        told = "enough: the least that suffices" if runs.is_exact else "enough: this suffices, and it may be less"
        yield "depth reached", f"{depth:,}", told
        yield from of_image(runs, image)
        if option(words, "--workers", 1) > 1:
            yield from of_journal(runs, words, room)


def main():
    split = len(sys.argv) - 1 - sys.argv[::-1].index("--")
    source, given, *words = sys.argv[1:split]
    program = sys.argv[split + 1 :]
    with tempfile.TemporaryDirectory(prefix="gib-stats-") as room:
        flat = [part for word in words for part in word.split("=", 1)]
        image = next((value for word, value in zip(flat, flat[1:]) if word == "--image"), None)
        more = [] if image else ["--image", os.path.join(room, "image")]
        ran = Ran([*program, "run", *words, *more, "--", source, given])
        runs = Runs(source, given, [word for word in flat if word == "--skips"], program)
        plain = without(words, "--image", "--pack")
        try:
            for name, figure, origin in rows(runs, plain, ran, image or more[1], room):
                print(f"  {name:<22}{figure:>12}  {origin}", file=sys.stderr)
        except (OSError, Refused, Stop, Torn, ValueError):
            pass
    sys.exit(ran.status)


if __name__ == "__main__":
    main()
