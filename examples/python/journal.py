"""Journals that `gib trace` writes: the tasks of a run, and what each did, in order. `docs/FORMATS.md` has the lines."""

import re
from collections import Counter
from typing import NamedTuple

from image import Torn

SETTINGS = re.compile(r"depth (\d+) chunks (\d+) fork (\d+) skips ([01])")
EVENT = re.compile(r"(step) (\d+) (\d+)|(fork|steal|take|finish|join) (\d+)")


class Event(NamedTuple):
    """A line of the journal: what a task did, how many steps it made, where its first stands among all, and the other task of a steal or join."""

    line: int
    what: str
    task: int
    steps: int
    clock: int
    other: int

    def words(self):
        if self.what == "step":
            return str(self.steps)
        return {"steal": f"steal -> {self.other}", "join": f"join <- {self.other}"}.get(self.what, self.what)


class Lane:
    """A task: whose side it was, the lines from which and to which it lives, and its counts of events."""

    def __init__(self, number, of, line):
        self.number, self.of, self.first, self.last = number, of, line, line
        self.counts, self.sides = Counter(), []


class Journal:
    """What a journal tells. Its events are taken at their word, as long as they name tasks and sides that there are."""

    def __init__(self, data):
        lines = data.decode("ascii", "replace").split("\n")
        if lines[0] != "gibj 3":
            raise Torn("this is no journal, and a picture of an image needs two files: the source, then its image")
        settings = SETTINGS.fullmatch(lines[1] if len(lines) > 1 else "")
        if not settings or lines[-2:] != ["end", ""]:
            raise Torn("this is no whole journal")
        self.settings = dict(zip(("depth", "chunks", "fork", "skips"), settings.groups()))
        self.tasks, self.events, self.clock = [Lane(0, None, 3)], [], 0
        for line, told in enumerate(lines[2:-2], 3):
            self.add(line, told)
        for lane in self.tasks:
            lane.sides = []

    def add(self, line, told):
        """Takes the event of a line."""
        found = EVENT.fullmatch(told)
        task = int(found[2] or found[5]) if found else -1
        if not 0 <= task < len(self.tasks):
            raise Torn(f"line {line} is no event")
        what, lane = found[1] or found[4], self.tasks[task]
        steps = int(found[3]) if what == "step" else 0
        other = self.other_task(what, lane, line)
        lane.counts[what] += steps if what == "step" else 1
        lane.last = line
        self.events.append(Event(line, what, task, steps, self.clock, other))
        self.clock += steps

    def other_task(self, what, lane, line):
        """Keeps the sides of a task, a number for each that was stolen and none for one that waits; the task that is stolen or joined."""
        if what == "fork":
            lane.sides.append(None)
        elif what == "steal":
            if None not in lane.sides:
                raise Torn(f"line {line} steals where nothing waits")
            self.tasks.append(Lane(len(self.tasks), lane.number, line))
            lane.sides[lane.sides.index(None)] = self.tasks[-1].number
            return self.tasks[-1].number
        elif what in ("take", "join"):
            if not lane.sides or (lane.sides[-1] is None) == (what == "join"):
                raise Torn(f"line {line} takes a side that is not there")
            return lane.sides.pop()
        return None

    def total(self):
        """All tasks as one."""
        whole = Lane(None, None, 3)
        whole.last = 2 + len(self.events)
        for lane in self.tasks:
            whole.counts += lane.counts
        return whole
