"""What is done to one packed file: a Gib program is run on it, and a row says how that ended.

Nothing here knows of an engine. `do_batch` is one task of Dask's scheduler, `do_file` one recipe of make, and `is_done` says by sums
whether the row of an earlier run still holds.
"""

import hashlib
import os
import subprocess
import time
import uuid
from typing import NamedTuple

# Want of memory is nobody's fault and may be gone soon, so it is tried again, after pauses of 0.2, 0.4, .. seconds.
WANT_OF_MEMORY = "5"
TRIES = 4
PAUSE = 0.1

# The statuses that the same source and input bring again. Whether chunks are enough may differ from run to run, so 4 is none of them.
FINAL = ("0", "1", "2", "3", "8", "9", "10")

# What `keep` may be, and how the name of a result ends.
ENDINGS = {"text": ".txt", "packed": ".gbp"}


class Work(NamedTuple):
    """A program and what is kept of its results. Paths are absolute, and the same on every machine."""

    gib: tuple  # the program `gib`, one word or more
    source: str
    folder: str  # where the packed files stand
    out: str  # where results and rows go
    keep: str  # "text" or "packed"
    words: tuple  # options of `run`
    seconds: float  # the longest that one call of `gib` may take


class Row(NamedTuple):
    """How the work on one file ended."""

    name: str  # its path below the folder
    status: str  # of gib; -N where signal N ended it; "time", "lost" or "failed" where it has none
    line: str  # what gib said; empty at status 0
    asked: str  # sum of the source and of what was asked of it
    given: str  # sum of the packed file; "-" where it cannot be read
    made: str  # sum of the result; "-" where there is none
    tries: str
    seconds: str


def sum_of(path):
    """The SHA-256 of a file, "-" where it cannot be read."""
    found = hashlib.sha256()
    try:
        with open(path, "rb") as file:
            while piece := file.read(1 << 20):
                found.update(piece)
    except OSError:
        return "-"
    return found.hexdigest()


def asked_of(work):
    """The sum of what is asked: the source, the options, and what is kept."""
    asked = "\n".join([sum_of(work.source), work.keep, *work.words])
    return hashlib.sha256(asked.encode()).hexdigest()


def input_of(work, name):
    return os.path.join(work.folder, name)


def result_of(work, name):
    """Where the result of a file stands."""
    return os.path.join(work.out, "made", os.path.splitext(name)[0] + ENDINGS[work.keep])


def is_done(work, asked, row):
    """Whether the row of an earlier run says what a new one would, and its result still stands."""
    return (
        row.status in FINAL
        and row.asked == asked
        and row.given == sum_of(input_of(work, row.name))
        and row.made == sum_of(result_of(work, row.name))
    )


def call(work, words, printed):
    """Calls gib in the folder and puts what it prints into a file. Answers a status and a line."""
    with open(printed, "wb") as file:
        try:
            ended = subprocess.run(
                [*work.gib, *words],
                cwd=work.folder,
                stdin=subprocess.DEVNULL,
                stdout=file,
                stderr=subprocess.PIPE,
                timeout=work.seconds,
            )
        except subprocess.TimeoutExpired:
            return "time", f"many: not ended after {work.seconds:g} s"
        except OSError as error:
            return "failed", f"many: {work.gib[0]} does not start: {error.strerror}"
    lines = ended.stderr.decode(errors="replace").replace("\t", " ").splitlines()
    if ended.returncode < 0:
        return str(ended.returncode), f"many: ended by signal {-ended.returncode}"
    return str(ended.returncode), lines[-1] if lines else ""


def make(work, name, part):
    """Makes the result of a file at `part`."""
    run = ["run", work.source, name, *work.words]
    if work.keep == "text":
        return call(work, run, part)
    return call(work, [*run, "--pack", part], os.devnull)


def remove(path):
    """Removes a file, if it is there."""
    try:
        os.remove(path)
    except FileNotFoundError:
        pass


def do_file(work, asked, name):
    """Does the work on one file. A result stands under its name only whole, and only where the status is 0."""
    began = time.monotonic()
    given = sum_of(input_of(work, name))
    result = result_of(work, name)
    # A name of its own: an engine that believes a worker dead may have two at the same file.
    part = os.path.join(work.out, "parts", uuid.uuid4().hex)
    os.makedirs(os.path.dirname(part), exist_ok=True)
    os.makedirs(os.path.dirname(result), exist_ok=True)
    for tries in range(1, TRIES + 1):
        status, line = make(work, name, part)
        if status != WANT_OF_MEMORY or tries == TRIES:
            break
        time.sleep(PAUSE * 2**tries)
    made = "-"
    if status == "0":
        made = sum_of(part)
        os.replace(part, result)
    else:
        remove(part)
        remove(result)
    return Row(name, status, line, asked, given, made, str(tries), f"{time.monotonic() - began:.3f}")


def do_batch(work, names):
    """Does the work on some files. What was asked is summed up by who does it, so a row never speaks of another source."""
    asked = asked_of(work)
    return [do_file(work, asked, name) for name in names]
