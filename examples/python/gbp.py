#!/usr/bin/env python3
"""Packed files in Python: read by the types that a file of version 2 says itself, or by those of a source. Nothing but Python 3 is needed, and `gib` itself
is not.

    gbp.py text [SRC] FILE                   prints the text of a packed file's value
    gbp.py gbp2json [SRC] FILE [--big]       prints it as JSON; with --big numbers past 2^53 as strings
    gbp.py text2gbp TYPES FILE OUT [--v1]    makes a packed file of a text of any length, of version 2, or of version 1 with --v1
    gbp.py json2gbp TYPES FILE OUT [--v1]    makes one of JSON
    gbp.py types SRC | FILE                  prints the description of types that a file of version 2 carries

TYPES is a source, or `--types FILE` with a packed file of version 2 or such a description. A file of version 1 says nothing of its types: SRC is due. Where it
is given, the type is that of main's parameter, or for a file of version 2 that of main's result. A FILE that is `-` is standard input. A fault is one line,
status 1, and nothing is written.

A value is an int, a bool, or a tuple of a constructor's name and its fields in declared order: `("Node", ("Leaf", 1), ("Leaf", 2))`,
`("Nil",)`. As JSON it is a number, `true` or `false`, or what Rust's serde makes of an enum: `"Nil"` of a constructor without fields,
`{"Leaf": 1}` of one field, `{"Node": [{"Leaf": 1}, {"Leaf": 2}]}` of more. In a program of your own:

    import gbp
    data = open("examples/add_one.gbp", "rb").read()
    schema = gbp.schema_of(data) or gbp.Schema.of_source(open("examples/add_one.gib").read())
    tree = gbp.unpack(schema, data)
    open("new.gbp", "wb").write(gbp.pack(schema, ("Node", tree, ("Leaf", 7))))

No value is too deep: nothing here recurses.
"""

import os
import sys
import tempfile

from description import Refused, Schema
from texts import JsonSink, JsonSource, TextSink, TextSource
from values import ValueSink, ValueSource, convey

MAGIC = b"GIBP"
LONGEST = 16_777_216
SIZES = {"Int": 8, "Bool": 1}


# -- packed files --------------------------------------------------------------------------------------------------------------


class Packed:
    """The payload of a packed file as a source: each constructor's tag, then its numbers and truth values, then its trees."""

    def __init__(self, schema, data):
        self.schema, self.data, self.at, self.heads = schema, data, 0, []
        self.kinds = {made.name: [made.fields[place] for place in made.scalars] for made in schema.constructors}

    def read(self, kind):
        """The number or truth value that stands here."""
        at, end = self.at, self.at + SIZES[kind]
        if end > len(self.data):
            raise Refused(f"short at {at}")
        if kind == "Bool" and self.data[at] > 1:
            raise Refused(f"bad truth value at {at}")
        self.at = end
        return self.data[at] == 1 if kind == "Bool" else int.from_bytes(self.data[at:end], "little", signed=True)

    def open(self, kind):
        if self.at >= len(self.data):
            raise Refused(f"short at {self.at}")
        made = self.schema.by_tag[kind].get(self.data[self.at])
        if made is None:
            raise Refused(f"bad tag at {self.at}")
        self.at += 1
        self.heads.append([self.read(one) for one in self.kinds[made.name]][::-1])
        return made

    def scalar(self, kind):
        return self.heads[-1].pop() if self.heads else self.read(kind)

    def close(self, made):
        self.heads.pop()

    def end(self):
        if self.at != len(self.data):
            raise Refused(f"trailing bytes at {self.at}")


class Payload:
    """Makes a payload. Of each constructor that is open it keeps where its next number goes, and how long that is."""

    def __init__(self):
        self.out, self.holes, self.rooms = bytearray(), [], {}

    def open(self, made):
        if len(self.out) > LONGEST:
            raise Refused(f"longer than {LONGEST} bytes")
        if made.name not in self.rooms:
            self.rooms[made.name] = bytes(sum(SIZES[made.fields[place]] for place in made.scalars))
        self.out.append(made.tag)
        self.holes.append(len(self.out))
        self.out += self.rooms[made.name]

    def scalar(self, value, kind):
        size = SIZES[kind]
        at = self.holes[-1] if self.holes else 0
        self.out[at : at + size] = int(value).to_bytes(size, "little", signed=kind == "Int")
        if self.holes:
            self.holes[-1] += size

    def close(self, made):
        self.holes.pop()


def whole_file(schema, payload, version=2, kind=None):
    """The packed file of a payload."""
    told = schema.description(kind) if version == 2 else b""
    lengths = [len(payload)] + [len(told)] * (version == 2)
    whole = MAGIC + bytes([version, 0, 0, 0]) + b"".join(length.to_bytes(8, "little") for length in lengths) + told + payload
    if len(whole) > LONGEST:
        raise Refused(f"longer than {LONGEST} bytes")
    return whole


def opened(data):
    """A packed file's version, its description (none in version 1) and its payload."""
    if len(data) > LONGEST:
        raise Refused(f"longer than {LONGEST} bytes")
    if data[:4] != MAGIC:
        raise Refused("not a packed file")
    if len(data) > 4 and data[4] not in (1, 2):
        raise Refused(f"version {data[4]}")
    if any(data[5:8]):
        raise Refused("reserved bytes")
    version = data[4] if len(data) > 4 else 1
    start = 8 + 8 * version
    lengths = [int.from_bytes(data[at : at + 8], "little") for at in range(8, start, 8)]
    if len(data) < start or sum(lengths) != len(data) - start:
        raise Refused("wrong length")
    end = start + (lengths[1] if version == 2 else 0)
    return version, data[start:end] if version == 2 else None, data[end:]


def schema_of(data):
    """The types that a packed file says it is of; none of one of version 1."""
    told = opened(data)[1]
    return None if told is None else Schema.of_description(told)


def source_of(schema, data, kind=None):
    """A packed file as a source, of main's parameter or of the type that is named. Refused as the program refuses it."""
    _, told, body = opened(data)
    due = schema.description(kind)
    if told is not None and told != due:
        place = next((at for at, (a, b) in enumerate(zip(told, due)) if a != b), min(len(told), len(due)))
        raise Refused(f"other types at {place}")
    return Packed(schema, body)


# -- values --------------------------------------------------------------------------------------------------------------------


def unpack(schema, data, kind=None):
    """The value of a packed file, of main's parameter or of the type that is named."""
    made = ValueSink()
    convey(kind or schema.parameter, source_of(schema, data, kind), made)
    return made.value


def pack(schema, value, version=2, kind=None):
    """The packed file of a value."""
    made = Payload()
    convey(kind or schema.parameter, ValueSource(schema, value), made)
    return whole_file(schema, bytes(made.out), version, kind)


def told(schema, value, sink, kind=None):
    """A value as text or as JSON, by a sink of that."""
    convey(kind or schema.parameter, ValueSource(schema, value), sink)
    return sink.text()


def text(schema, value, kind=None):
    """The one text of a value, as `gib show` prints it, without a line feed."""
    return told(schema, value, TextSink(), kind)


def to_json(schema, value, kind=None, big=False):
    """A value as JSON."""
    return told(schema, value, JsonSink(big), kind)


def of_json(schema, given, kind=None):
    """The value of a JSON text."""
    made = ValueSink()
    convey(kind or schema.parameter, JsonSource(schema, given), made)
    return made.value


# -- commands ------------------------------------------------------------------------------------------------------------------


class Usage(Exception):
    """The words are no command."""


def read(name):
    if name == "-":
        return sys.stdin.buffer.read()
    with open(name, "rb") as file:
        return file.read()


def read_text(name):
    try:
        return read(name).decode("utf-8")
    except UnicodeDecodeError:
        raise Refused(f"{name} is no text") from None


def write(name, data):
    """Writes a file, whole or not at all, where its name is that of a file or of none yet."""
    if os.path.exists(name) and not os.path.isfile(name):
        with open(name, "wb") as file:
            file.write(data)
        return
    name = os.path.realpath(name)
    with tempfile.NamedTemporaryFile(dir=os.path.dirname(name) or ".", prefix=".gbp-", delete=False) as file:
        try:
            file.write(data)
            file.flush()
            os.chmod(file.name, os.stat(name).st_mode & 0o777 if os.path.exists(name) else 0o666 & ~current_mask())
            os.replace(file.name, name)
        except OSError:
            os.unlink(file.name)
            raise


def current_mask():
    mask = os.umask(0)
    os.umask(mask)
    return mask


def types_in(name):
    """The types that a packed file, a description or a source says."""
    data = read(name)
    if data[:4] == MAGIC:
        schema = schema_of(data)
        if schema is None:
            raise Refused(f"{name} is of version 1, which does not say its types")
        return schema
    if data.startswith(b"main ") and b"(" not in data.partition(b"\n")[0]:
        return Schema.of_description(data)
    return Schema.of_source(data.decode("latin-1"))


def printed(names, sink):
    """What `text` and `gbp2json` print of a file, with a source in front of it or without."""
    data = read(names[-1])
    own = schema_of(data)
    schema = types_in(names[0]) if len(names) == 2 else own
    if schema is None:
        raise Refused(f"{names[-1]} is of version 1, which does not say its types: the source stands before it")
    kind = schema.parameter
    if own and schema.result and own.description() == schema.description(schema.result):
        kind = schema.result
    convey(kind, source_of(schema, data, kind), sink)
    print(sink.text())


def packed(types, names, version, source):
    """Makes a packed file of a text or of JSON."""
    if types is None:
        types, *names = names
    if os.path.exists(names[1]) and any(name != "-" and os.path.exists(name) and os.path.samefile(name, names[1]) for name in (types, names[0])):
        raise Refused(f"{names[1]} is read and would be written")
    schema, made = types_in(types), Payload()
    convey(schema.parameter, source(schema, read_text(names[0])), made)
    write(names[1], whole_file(schema, bytes(made.out), version))


def words_of(words):
    """The names and the flags among the words; of `--types` the name behind it."""
    names, flags = [], {}
    words = iter(words)
    for word in words:
        if word == "--types":
            flags[word] = next(words, None)
        elif word in ("--v1", "--big"):
            flags[word] = True
        elif word.startswith("--"):
            raise Usage
        else:
            names.append(word)
    return names, flags


# Of each command how many names it takes, and its flags.
COMMANDS = {
    "text": ((1, 2), set()),
    "gbp2json": ((1, 2), {"--big"}),
    "types": ((1,), set()),
    "text2gbp": ((2, 3), {"--types", "--v1"}),
    "json2gbp": ((2, 3), {"--types", "--v1"}),
}


def run(words):
    names, flags = words_of(words[1:])
    counts, known = COMMANDS.get(words[0] if words else "", ((), set()))
    if len(names) not in counts or not flags.keys() <= known or ("--types" in known and ("--types" in flags) != (len(names) == 2)):
        raise Usage
    if words[0] == "types":
        print(types_in(names[0]).description().decode(), end="")
    elif words[0] in ("text", "gbp2json"):
        printed(names, TextSink() if words[0] == "text" else JsonSink("--big" in flags))
    else:
        packed(flags.get("--types"), names, 1 if "--v1" in flags else 2, TextSource if words[0] == "text2gbp" else JsonSource)


def main(words):
    try:
        run(words)
        sys.stdout.flush()
        return 0
    except Usage:
        print(__doc__.strip(), file=sys.stderr)
        return 2
    except Refused as refused:
        print(f"gbp: {refused}", file=sys.stderr)
    except BrokenPipeError:
        os.dup2(os.open(os.devnull, os.O_WRONLY), sys.stdout.fileno())
    except OSError as error:
        print(f"gbp: {error.filename or 'standard output'}: {error.strerror}", file=sys.stderr)
    except MemoryError:
        print("gbp: memory", file=sys.stderr)
    return 1


if __name__ == "__main__":
    sys.exit(main(sys.argv[1:]))
