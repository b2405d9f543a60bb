"""Values on their way from one form to another: `convey` takes one from a source to a sink, constructor by constructor, in the order of their fields.

A source answers what comes next: `open(kind)` a constructor of that type, `scalar(kind)` a number or truth value; `close(made)` and `end()` are told. A sink is
told the same: `open(made)`, `scalar(value, kind)`, `close(made)`. Nothing here recurses, so no value is too deep.
"""

from description import SCALARS, Refused

LEAST, GREATEST = -(2**63), 2**63 - 1


def convey(kind, source, sink):
    """Takes a value of a type from a source to a sink."""
    due, opened = [iter((kind,))], []
    while due:
        kind = next(due[-1], None)
        if kind is None:
            due.pop()
            if opened:
                made = opened.pop()
                source.close(made)
                sink.close(made)
        elif kind in SCALARS:
            sink.scalar(source.scalar(kind), kind)
        else:
            made = source.open(kind)
            sink.open(made)
            opened.append(made)
            due.append(iter(made.fields))
    source.end()


def brief(value):
    """A value, short enough for a line."""
    if not isinstance(value, tuple):
        return repr(value)[:40]
    if not value:
        return "()"
    return f"({value[0]} with {len(value) - 1} fields)" if len(value) > 1 else str(value[0])


class ValueSource:
    """A value as Python has it: an int, a bool, or a tuple of a constructor's name and its fields."""

    def __init__(self, schema, value):
        self.schema, self.due = schema, [iter((value,))]

    def open(self, kind):
        value = next(self.due[-1])
        made = self.schema.by_shown[kind].get(value[0]) if isinstance(value, tuple) and value else None
        if made is None or len(value) != len(made.fields) + 1:
            raise Refused(f"{brief(value)} is no {kind}")
        self.due.append(iter(value[1:]))
        return made

    def scalar(self, kind):
        value = next(self.due[-1])
        if isinstance(value, bool) if kind == "Bool" else isinstance(value, int) and not isinstance(value, bool) and LEAST <= value <= GREATEST:
            return value
        raise Refused(f"{brief(value)} is no {kind}")

    def close(self, made):
        self.due.pop()

    def end(self):
        pass


class ValueSink:
    """Makes such a value."""

    def __init__(self):
        self.opened, self.value = [], None

    def open(self, made):
        self.opened.append([made.shown])

    def scalar(self, value, kind):
        if self.opened:
            self.opened[-1].append(value)
        else:
            self.value = value

    def close(self, made):
        self.scalar(tuple(self.opened.pop()), made.type)
