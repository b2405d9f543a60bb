#!/usr/bin/python3
"""many.py SOURCE FOLDER OUT [--workers N | --scheduler ADDRESS | --alone] [options]: runs a Gib program on each packed file (*.gbp) below a folder.

Results go to OUT/made, one file each, and OUT/table.tsv says how each ended. What an earlier run did and its sums still confirm is not
done again. Prints the files that failed and a line of counts; the status is 0 where none failed. GIB names the program `gib`.
"""

import itertools
import os
import shutil
import sys
import time

import command
import gib_work
import table
import words
from gib_work import Row

# So many tasks are with the scheduler at a time: enough for each worker, and its memory stays small whatever the number of files.
WINDOW = 2000

# Fewer files than this are done sooner in one process, unless each of them takes long.
FEW = 1000

# Dask's scheduler gives a task to another worker so many times before it holds the task for the cause.
DEATHS = 3


def packed_files(folder):
    """The names of all packed files below a folder, in order."""
    names = []
    for at, _, files in os.walk(folder):
        names += [os.path.relpath(os.path.join(at, file), folder) for file in files if file.endswith(".gbp")]
    names = sorted(names)
    for name in names:
        if "\t" in name or "\n" in name:
            sys.exit(f"many: a tab or a line feed in a name: {name!r}")
    return names


def batches_of(work, names, most_bytes, most_files):
    """The names in groups, each of so many files and bytes at most; a greater file stands alone."""
    batch, held = [], 0
    for name in names:
        size = os.lstat(gib_work.input_of(work, name)).st_size
        if batch and (held + size > most_bytes or len(batch) == most_files):
            yield batch
            batch, held = [], 0
        batch.append(name)
        held += size
    if batch:
        yield batch


def do_alone(work, batches):
    """Does the work in this process. Answers rows as they come."""
    for batch in batches:
        yield from gib_work.do_batch(work, batch)


def lost(work, name, error):
    """The row of a file whose task brought no answer: workers died at it, or the task itself failed. No result of an earlier run stays."""
    gib_work.remove(gib_work.result_of(work, name))
    status = "lost" if type(error).__name__ == "KilledWorker" else "failed"
    line = f"many: {DEATHS + 1} workers died at it" if status == "lost" else f"many: {type(error).__name__}: {error}"
    return Row(name, status, " ".join(line.split()), gib_work.asked_of(work), "-", "-", "1", "0")


def do_spread(client, work, batches):
    """Does the work by the workers of a scheduler, one task a batch. A worker that dies costs the batches that it had begun, which
    others get. A batch at which too many died, or that failed, is done file by file, so that only the file to blame is lost."""
    from distributed import as_completed

    client.upload_file(gib_work.__file__)
    batch_of = {}

    def submit(batch):
        future = client.submit(gib_work.do_batch, work, batch, pure=False)
        batch_of[future.key] = batch
        return future

    waiting = iter(batches)
    running = as_completed(map(submit, itertools.islice(waiting, WINDOW)))
    for future in running:
        batch = batch_of.pop(future.key)
        try:
            # Where a worker died with its answer, this waits until another one has made it again.
            rows = future.result()
        except Exception as error:  # what the task ended with
            rows = []
            if len(batch) == 1:
                rows.append(lost(work, batch[0], error))
            else:
                running.update([submit([name]) for name in batch])
        yield from rows
        running.update(map(submit, itertools.islice(waiting, 1)))


def do_by(given, work, batches):
    """Does the work by the engine that the words name."""
    if given.alone:
        yield from do_alone(work, batches)
        return
    try:
        import dask
        from distributed import Client, LocalCluster
    except ImportError as error:
        sys.exit(f"many: {error}: Debian's package python3-distributed has Dask for /usr/bin/python3; --alone does without")
    if given.scheduler:
        with Client(given.scheduler) as client:
            yield from do_spread(client, work, batches)
        return
    # A worker holds the task that it does and no other, so that no other is suspected where it dies.
    dask.config.set({"distributed.scheduler.worker-saturation": 1.0})
    with LocalCluster(given.workers, threads_per_worker=1, dashboard_address=None, silence_logs="CRITICAL") as cluster:
        with Client(cluster) as client:
            yield from do_spread(client, work, batches)


def parsed():
    """What the command line says."""
    parser = words.common_parser(__doc__)
    engine = parser.add_mutually_exclusive_group()
    engine.add_argument("--workers", type=int, default=os.cpu_count(), help="start so many processes on this machine")
    engine.add_argument("--scheduler", help="the address of a scheduler, as tcp://HOST:8786")
    engine.add_argument("--alone", action="store_true", help="do all in this process")
    parser.add_argument("--batch-files", type=int, default=16, help="at most so many files a task")
    parser.add_argument("--batch-bytes", type=int, default=1 << 20, help="at most so many bytes a task, or one file")
    return parser.parse_args()


def main():
    given = parsed()
    work = words.work_of(given)
    # A source that is no program ends all before any file is asked about.
    command.printed("check", work.source)
    began = time.monotonic()
    os.makedirs(work.out, exist_ok=True)
    shutil.rmtree(os.path.join(work.out, "parts"), ignore_errors=True)
    path = os.path.join(work.out, "table.tsv")
    names = packed_files(work.folder)
    old = table.read_table(path)
    for name in old.keys() - set(names):
        gib_work.remove(gib_work.result_of(work, name))
    asked = gib_work.asked_of(work)
    rows = {name: old[name] for name in names if name in old and gib_work.is_done(work, asked, old[name])}
    kept = len(rows)
    due = [name for name in names if name not in rows]
    if 0 < len(due) < FEW and not given.alone and not given.scheduler:
        print(f"many: {len(due)} files are done sooner with --alone: below {FEW:,} starting the workers takes longer than the work", file=sys.stderr)
    table.write_table(path, rows)
    # Each row is put as it comes, so a run that is cut off has lost only what it had not done.
    with open(path, "a", encoding="utf-8", errors="surrogateescape", newline="\n") as file:
        for row in do_by(given, work, batches_of(work, due, given.batch_bytes, given.batch_files)) if due else ():
            rows[row.name] = row
            file.write(table.line_of(row))
            file.flush()
    table.write_table(path, rows)
    failed = table.tell(rows)
    print(f"{len(rows)} files: {len(rows) - kept} done, {kept} kept, {failed} failed, {time.monotonic() - began:.1f} s")
    sys.exit(1 if failed else 0)


if __name__ == "__main__":
    main()
