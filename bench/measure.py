"""Times the program on inputs and sources of two sizes, one ten times the other, and holds the aims against them."""

import math
import os
import re
import shutil
import subprocess
import sys
import tempfile
from typing import NamedTuple

import inputs

# Ten times the input may take so many times the time.
MOST_RATIO = 13
# The least time of so many runs counts.
RUNS = 3

LAUNCH = os.path.join(os.path.dirname(os.path.abspath(__file__)), "launch.py")

# Trees of so many leaves are measured beside the other ways to do the same.
BESIDE_LEAVES = (2**10, 2**14, 2**18)
PAYLOADS = (1_600_000, 16_000_000)
SOURCES = (100_000, 1_000_000)


# A pass over a tree writes so many bytes of memory at most for each byte of payload, its input with them.
GROWTH = 8


def chunks_for(payload):
    """How many chunks of memory a run on so many bytes gets."""
    return str(GROWTH * payload // 4096 + 64)


class Aims(NamedTuple):
    """What a command may take at the greater size: bytes of memory at the peak for each byte of payload or source, and seconds."""

    per_byte: float = math.inf
    seconds: float = math.inf


VALUES = Aims(per_byte=40)
SOURCE = Aims(per_byte=100, seconds=2)
# A core or code may be many times as long as its source, so its memory is only printed.
PRINTED = Aims(seconds=2)


class Missed(Exception):
    """The program did not do what it was measured at."""


def instructions(words):
    """How many instructions a command takes, with its output thrown away."""
    counted = subprocess.run(["valgrind", "--tool=callgrind", "--callgrind-out-file=/dev/null", *words], capture_output=True, text=True)
    found = re.search(r"Collected : (\d+)", counted.stderr)
    if counted.returncode or not found:
        raise Missed(f"status {counted.returncode} {counted.stderr.strip()[-200:]}")
    return int(found.group(1))


def run_once(words, out):
    """Runs a command with its output in a file. Answers processor seconds, the peak memory in bytes, and the seconds that passed."""
    ran = subprocess.run([sys.executable, "-I", "-S", LAUNCH, out, *words], capture_output=True, text=True)
    if ran.returncode:
        raise Missed(ran.stderr.strip().split("\n")[-1])
    status, seconds, peak, passed = ran.stdout.split()
    if status != "0":
        raise Missed(f"status {status} {ran.stderr.strip()}")
    return float(seconds), int(peak), float(passed)


def measure(words, out, result, due):
    """The least time and the greatest peak of some runs, each of which has to leave what is due in `result`."""
    seconds, peaks = [], []
    for _ in range(RUNS):
        time, peak, _ = run_once(words, out)
        with open(result, "rb") as made:
            if not due(made.read()) if callable(due) else made.read() != due:
                raise Missed("another result than is due")
        seconds.append(time)
        peaks.append(peak)
    return min(seconds), max(peaks)


class Bench:
    """Runs a program's commands in a folder of its own and prints a line for each."""

    def __init__(self, gib, folder):
        self.gib, self.folder, self.failed = gib, folder, 0

    def at(self, name):
        return os.path.join(self.folder, name)

    def put(self, name, data):
        with open(self.at(name), "wb") as file:
            file.write(data)

    def case(self, what, aims, sizes, words, due, result="out"):
        """Measures a command on `NAME.0` and `NAME.1`, for the names among its words, of the two sizes. `#` stands for the chunks that a run of
        that size gets."""
        found, faults = [], []
        for place, size in enumerate(sizes):
            named = [self.at(f"{word[1:]}.{place}") if word.startswith("@") else word for word in words]
            here = [chunks_for(size) if word == "#" else word for word in named]
            try:
                seconds, peak = measure([*self.gib, *here], self.at("out"), self.at(result), due[place])
            except Missed as missed:
                faults.append(str(missed))
                break
            found.append(seconds)
            per_byte = peak / size
            print(f"{what if not place else '':22}{size:>12,}{seconds:>10.3f} s{peak / 1e6:>10.1f} MB{per_byte:>8.1f}", end="")
            if place:
                ratio = found[1] / found[0]
                print(f"{ratio:>8.1f}", end="")
                if ratio > MOST_RATIO:
                    faults.append(f"more than {MOST_RATIO} times the time")
                if seconds > aims.seconds:
                    faults.append(f"more than {aims.seconds} s")
                # at the greater size alone, where the program's own few million bytes don't matter
                if per_byte > aims.per_byte:
                    faults.append(f"more than {aims.per_byte} bytes a byte")
            print(flush=True)
        for fault in faults:
            print(f"{what}: MISSED: {fault}", flush=True)
        self.failed += bool(faults)


def has_functions(source, begins):
    """Whether a text has a line that begins a function for each function of a source."""
    due = source.count(b"fun ")
    return lambda made: sum(map(begins, made.splitlines())) == due


def begins_in_core(line):
    return line.startswith(b"fun ")


def begins_in_code(line):
    """Main's line is no function's; each instruction begins with its number."""
    return not line[:1].isdigit() and not line.startswith(b"main ")


def measure_passes(bench, what, make):
    """Checks sources of two sizes, and prints their cores and their code."""
    sources = [make(size) for size in SOURCES]
    for place, source in enumerate(sources):
        bench.put(f"large.{place}", source)
    bench.case(f"check, {what}", SOURCE, SOURCES, ["check", "@large"], [b"ok\n"] * 2)
    for command, begins in (("core", begins_in_core), ("code", begins_in_code)):
        dues = [has_functions(source, begins) for source in sources]
        bench.case(f"{command}, {what}", PRINTED, SOURCES, [command, "@large"], dues)


def measure_sources(bench):
    measure_passes(bench, "source", inputs.source)
    for place in range(len(SOURCES)):
        bench.put(f"one.{place}", inputs.packed(inputs.number(1)))
    bench.case("run, source", SOURCE, SOURCES, ["run", "@large", "@one"], [b"1\n"] * 2)
    measure_passes(bench, "arms", inputs.arms_source)
    measure_passes(bench, "deep", inputs.deep_source)
    measure_passes(bench, "wide", inputs.wide_source)
    measure_passes(bench, "sums", inputs.sums_source)
    measure_passes(bench, "calls", inputs.calls_source)


def measure_values(bench, what, program, file, text, result, counts, texts):
    """Shows and runs values of these counts, made by `file`, and packs texts of the other counts."""
    for place, count in enumerate(counts):
        bench.put(f"program.{place}", program.encode())
        bench.put(f"packed.{place}", file(count))
    sizes = [len(file(count)) - len(inputs.packed(b"")) for count in counts]
    shown = [text(count) for count in counts]
    bench.case(f"show, {what}", VALUES, sizes, ["show", "@program", "@packed"], shown)
    run = [result(count) for count in counts]
    for flags in ([], ["--skips"]):
        words = ["run", "@program", "@packed", "--chunks", "#", *flags]
        bench.case(" ".join(["run", *flags]) + f", {what}", VALUES, sizes, words, run)
    bench.case(f"plain, {what}", VALUES, sizes, ["plain", "@program", "@packed"], run)
    for place, count in enumerate(texts):
        bench.put(f"text.{place}", text(count))
    sizes = [len(file(count)) - len(inputs.packed(b"")) for count in texts]
    words = ["pack", "@program", "@text", bench.at("made"), "--v1"]
    bench.case(f"pack, {what}", VALUES, sizes, words, [file(count) for count in texts], "made")


def ocaml_programs(folder, name):
    """A program of this folder in OCaml, as bytecode and as native code, where its compilers are installed."""
    source = os.path.join(os.path.dirname(LAUNCH), name)
    made = []
    for what, compiler in (("OCaml bytecode", "ocamlc"), ("OCaml native", "ocamlopt")):
        if shutil.which(compiler) is None:
            print(f"{what}: {compiler} is not installed", flush=True)
            continue
        copy, program = os.path.join(folder, f"{compiler}.ml"), os.path.join(folder, compiler)
        shutil.copy(source, copy)
        subprocess.run([compiler, "-o", program, copy], check=True, capture_output=True)
        made.append((what, [program]))
    return made


def measure_beside(bench):
    """One pass over a tree: by the machine on packed bytes, by the plain evaluator, and in OCaml, in one run."""
    program = bench.at("program")
    bench.put("program", inputs.TREE.encode())
    ways = [
        ("run", [*bench.gib, "run", program, "@", "--chunks", "#"]),
        ("run --skips", [*bench.gib, "run", program, "@", "--chunks", "#", "--skips"]),
        ("plain", [*bench.gib, "plain", program, "@"]),
        *((what, [*words, "@"]) for what, words in ocaml_programs(bench.folder, "next_tree.ml")),
    ]
    for leaves in BESIDE_LEAVES:
        file = inputs.tree_file(leaves)
        bench.put("tree", file)
        for what, words in ways:
            places = {"@": bench.at("tree"), "#": chunks_for(len(file))}
            here = [places.get(word, word) for word in words]
            try:
                seconds, peak = measure(here, bench.at("out"), bench.at("out"), inputs.next_text(leaves))
            except Missed as missed:
                print(f"{what}: MISSED: {missed}", flush=True)
                bench.failed += 1
                continue
            print(f"{what:22}{len(file):>12,}{seconds:>10.3f} s{peak / 1e6:>10.1f} MB{peak / len(file):>8.1f}", flush=True)


def main():
    gib = sys.argv[1].split()
    with tempfile.TemporaryDirectory(prefix="gib-bench-") as folder:
        bench = Bench(gib, folder)
        print(f"{'':22}{'bytes':>12}{'time':>12}{'peak':>13}{'a byte':>8}{'ratio':>8}")
        measure_sources(bench)
        cells = [size // inputs.CELL for size in PAYLOADS]
        measure_values(bench, "list", inputs.LIST, inputs.list_file, inputs.list_text, inputs.list_text, cells, cells)
        leaves = [size // inputs.LEAF for size in PAYLOADS]
        # a tree's text is longer than its payload
        texts = [size // inputs.LEAF_TEXT for size in PAYLOADS]
        measure_values(bench, "tree", inputs.TREE, inputs.tree_file, inputs.tree_text, inputs.next_text, leaves, texts)
        measure_beside(bench)
    print(f"{bench.failed} missed")
    sys.exit(1 if bench.failed else 0)


if __name__ == "__main__":
    main()
