"""Images of region memory, that `gib run --image` writes: what stands in their chunks, and who reaches it. `docs/MEMORY.md` tells how it lies."""

from typing import NamedTuple

CHUNK, HEADER = 4096, 24
INDIRECTION, REDIRECT = 254, 255
TRUTH_ANSWER, ADDRESS_ANSWER = 1, 2
KINDS = {
    "in": "what only the loaded input has",
    "both": "what the answer points to in the input",
    "out": "what only the answer has",
    "work": "made on the way, and reached no more",
    "free": "never put",
}


class Torn(Exception):
    """The file is no image, or an item of it is none of the program."""


class Item(NamedTuple):
    """An item: its bytes, the address that it leads to (an indirection or a redirect), the address behind it, and how many trees follow."""

    size: int
    leads: int
    following: int
    packed: int


class Image:
    """The chunks of an image, its answer, and how heads are laid out: by a schema, and the names of those that store offsets."""

    def __init__(self, data, schema, stored):
        if data[:4] == b"GIBP":
            raise Torn("this is a packed file, and no image: gib run --image FILE writes one")
        if data[:4] != b"GIBI" or len(data) < HEADER or (len(data) - HEADER) % CHUNK:
            raise Torn("this is no image")
        self.memory, self.kind = data[HEADER:], data[5]
        self.answer = int.from_bytes(data[8:16], "little", signed=True)
        self.made = schema.constructors
        self.offsets = [max(len(made.packed) - 1, 0) if made.name in stored else 0 for made in self.made]
        self.scalars = [[made.fields[place] for place in made.scalars] for made in self.made]
        self.sizes = [1 + 8 * count + sum(8 if kind == "Int" else 1 for kind in kinds) for count, kinds in zip(self.offsets, self.scalars)]
        self.packed = [len(made.packed) for made in self.made]
        self.loaded = self.reached(0) if schema.parameter in schema.types else {}
        self.result = self.reached(self.answer) if self.kind == ADDRESS_ANSWER else {}
        self.last = {}
        for at in (*self.loaded, *self.result):
            self.last[at // CHUNK] = max(at, self.last.get(at // CHUNK, at))

    def word(self, at):
        return int.from_bytes(self.memory[at : at + 8], "little")

    def item(self, at):
        """The item at an address."""
        if not 0 <= at < len(self.memory):
            raise Torn(f"nothing stands at {at}")
        tag = self.memory[at]
        if tag >= INDIRECTION:
            size, packed = 9, 0
        elif tag < len(self.sizes):
            size, packed = self.sizes[tag], self.packed[tag]
        else:
            raise Torn(f"no constructor has the tag {tag}, which stands at {at}: is this the image of another program?")
        if at % CHUNK + size > CHUNK:
            raise Torn(f"the item at {at} is not whole")
        leads = self.word(at + 1) if tag >= INDIRECTION else None
        return Item(size, leads, leads if tag == REDIRECT else at + size, packed)

    def reached(self, root):
        """The items of the value at an address, each with its level in the value that it stands in. Each is visited once."""
        levels, ends, starts = {}, {}, [root]
        while starts:
            start = at = starts.pop()
            if start in levels:
                continue
            due = [1]
            while due:
                if at in ends:
                    due[-1] -= 1
                    at = ends[at]
                else:
                    at = self.visit(at, levels, due, starts)
                while due and not due[-1]:
                    due.pop()
            ends[start] = at
        return levels

    def visit(self, at, levels, due, starts):
        """Takes the value's next item, or jumps over it; the address behind it. `due` has the trees that are due on each level."""
        if at in levels:
            raise Torn(f"the items lead round at {at}")
        item = self.item(at)
        levels[at] = len(due) - 1
        if self.memory[at] == REDIRECT:
            return item.leads
        if self.memory[at] == INDIRECTION:
            starts.append(item.leads)
        due[-1] -= 1
        if item.packed:
            due.append(item.packed)
        return item.following

    def kind_at(self, at):
        """Who reaches the item at an address: nobody where it is none of `KINDS`."""
        if at in self.loaded:
            return "both" if at in self.result else "in"
        return "out" if at in self.result else None

    def items(self, chunk):
        """What stands in a chunk, in order: address, kind, number of bytes. Items follow each other without a gap, so that what was made
        on the way is read like all else; behind the last byte that is not 0 nobody can tell a 0 that was put from one that was not."""
        at, end = CHUNK * chunk, CHUNK * (chunk + 1)
        used = at + len(self.memory[at:end].rstrip(b"\0"))
        while at < end:
            kind = self.kind_at(at)
            if kind is None and at >= used and at > self.last.get(chunk, -1):
                yield at, "free", end - at
                return
            size = self.item(at).size if kind else self.work_size(at, end)
            yield at, kind or "work", size
            at += size

    def work_size(self, at, end):
        """The bytes of an item that nobody reaches, or what stands up to the next one that somebody does."""
        try:
            size = self.item(at).size
        except Torn:
            size = end - at
        return next((place - at for place in range(at + 1, at + size) if self.kind_at(place)), size)

    def head(self, at, offsets=True):
        """An item in words: a constructor with its offsets and numbers, or where it leads and what stands there."""
        tag, item = self.memory[at], self.item(at)
        if tag >= INDIRECTION:
            name = "redirect" if tag == REDIRECT else "indirection"
            return f"{name} -> {item.leads} {self.named(item.leads)}"
        words, place = [self.made[tag].name], at + 1
        for _ in range(self.offsets[tag]):
            if offsets:
                words.append(f"-> {self.word(place)}")
            place += 8
        for kind in self.scalars[tag]:
            size = 8 if kind == "Int" else 1
            number = int.from_bytes(self.memory[place : place + size], "little", signed=True)
            words.append(str(number) if kind == "Int" else str(bool(number)))
            place += size
        return " ".join(words)

    def named(self, at):
        """The constructor that stands at an address or is led to from there, with its numbers."""
        for _ in range(len(self.memory) // CHUNK + 2):
            tag = self.memory[at] if at < len(self.memory) else 0
            if tag < INDIRECTION:
                return self.head(at, offsets=False)
            at = self.item(at).leads
        return ".."

    def leads_to(self, at):
        """The addresses that the item at an address names: of offsets, or the one of an indirection or a redirect."""
        tag = self.memory[at]
        if tag >= INDIRECTION:
            return [self.item(at).leads]
        return [self.word(at + 1 + 8 * place) for place in range(self.offsets[tag])]

    def chunks(self):
        return range(len(self.memory) // CHUNK)

    def answer_words(self):
        """The answer where it is a number or a truth value."""
        return str(bool(self.answer) if self.kind == TRUTH_ANSWER else self.answer)
