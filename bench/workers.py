"""workers.py GIB [PASSES]: sums a tree so many times with 1, 2 and 4 workers, in OCaml, and in Rust with 1, 2 and 4 threads."""

import os
import shutil
import subprocess
import sys
import tempfile
from typing import NamedTuple

import inputs
from measure import RUNS, Missed, ocaml_programs, run_once

LEVELS = 18
LEAVES = 2**LEVELS
PASSES = 50

# How many workers, and how many forks are nested in one another: none, as many as `run` nests without the option, and at each node.
WORKERS = (1, 2, 4)
FORKS = (0, 4, LEVELS)

# The tree takes 1,200 chunks.
CHUNKS = "4096"

# Seconds of processor time that a fork may cost.
AIM = 2e-6


class Time(NamedTuple):
    """Seconds that passed, and seconds of processor time."""

    passed: float
    processor: float


class Bench:
    """Runs programs on one tree, with a number of passes and with none."""

    def __init__(self, folder, passes):
        self.folder, self.passes, self.missed = folder, passes, 0
        for count in (0, passes):
            self.put(f"work.{count}", inputs.work_file(count, LEAVES))

    def at(self, name):
        return os.path.join(self.folder, name)

    def put(self, name, data):
        with open(self.at(name), "wb") as file:
            file.write(data)

    def least(self, words, count):
        """The least times of some runs with so many passes; `@` among the words is the input."""
        times = []
        for _ in range(RUNS):
            here = [self.at(f"work.{count}") if word == "@" else word for word in words]
            processor, _, passed = run_once(here, self.at("out"))
            with open(self.at("out"), "rb") as made:
                if made.read() != b"%d\n" % (count * LEAVES):
                    raise Missed("another result than is due")
            times.append(Time(passed, processor))
        return Time(*map(min, zip(*times)))

    def row(self, what, words, forks=0):
        """Prints a line for a program, which makes so many forks in a pass. Answers the time of one pass."""
        try:
            whole, load = self.least(words, self.passes), self.least(words, 0)
        except Missed as missed:
            self.miss(what, missed)
            return None
        one = Time(*((with_passes - without) / self.passes for with_passes, without in zip(whole, load)))
        rate = f"{forks / one.passed:>16,.0f}" if forks else ""
        print(
            f"{what:30}{whole.passed:>8.3f} s{load.passed:>8.3f} s{one.passed * 1e3:>10.2f} ms{one.processor * 1e3:>10.2f} ms{rate}",
            flush=True,
        )
        return one

    def miss(self, what, why):
        self.missed += 1
        print(f"{what}: MISSED: {why}", flush=True)


def measure_gib(bench, gib):
    """One worker, and more with none, few and all forks. A fork costs what a pass with all takes more of processors than one with none."""
    bench.put("sums", inputs.SUMS.encode())
    for workers in WORKERS:
        found = {}
        for nested in FORKS if workers > 1 else (0,):
            words = [*gib, "run", bench.at("sums"), "@", "--chunks", CHUNKS, "--workers", str(workers), "--fork", str(nested)]
            what = f"run, {workers} workers, fork {nested}" if workers > 1 else "run, 1 worker"
            found[nested] = bench.row(what, words, 2**nested - 1)
        if workers > 1 and all(found.values()):
            cost = (found[LEVELS].processor - found[0].processor) / (2**LEVELS - 1)
            print(f"  a fork costs {cost * 1e6:.2f} microseconds of processor time")
            if cost > AIM:
                bench.miss("a fork", f"more than {AIM * 1e6:.0f} microseconds")


def measure_rust(bench):
    """The same in Rust, where its compiler is installed."""
    if shutil.which("rustc") is None:
        print("Rust: rustc is not installed", flush=True)
        return
    source, program = os.path.join(os.path.dirname(os.path.abspath(__file__)), "sum_tree.rs"), bench.at("rust")
    subprocess.run(["rustc", "--edition", "2021", "-O", "-o", program, source], check=True, capture_output=True)
    for threads in WORKERS:
        bench.row(f"Rust, {threads} thread{'s' if threads > 1 else ''}", [program, "@", str(threads)])


def main():
    gib = sys.argv[1].split()
    passes = int(sys.argv[2]) if len(sys.argv) > 2 else PASSES
    with tempfile.TemporaryDirectory(prefix="gib-workers-") as folder:
        bench = Bench(folder, passes)
        print(f"{passes} passes over {LEAVES:,} leaves, the least time of {RUNS} runs each")
        print(f"{'':30}{'whole':>10}{'load':>10}{'a pass':>13}{'processor':>13}{'forks a second':>16}")
        measure_gib(bench, gib)
        for what, words in ocaml_programs(folder, "sum_tree.ml"):
            bench.row(what, [*words, "@"])
        measure_rust(bench)
    print(f"{bench.missed} missed")
    sys.exit(1 if bench.missed else 0)


if __name__ == "__main__":
    main()
