"""Pages for a browser: an image's chunks as bars, its values as trees, and a journal's tasks as lanes, to be played; and journals for viewers of traces."""

import json
from html import escape

from image import ADDRESS_ANSWER, CHUNK, INDIRECTION, KINDS, Torn

# A page shows at most so many chunks, arrows, lines of a tree, lanes and events; it says where there are more.
CHUNKS, ARROWS, TREE, LANES, EVENTS = 64, 300, 2000, 64, 20_000
WIDTH, BAR, GAP, LABEL = 1040, 26, 34, 70
COLOURS = {"in": "#7fb0dd", "both": "#8fc48a", "out": "#f0b35a", "work": "#b9b3ad", "free": "#f4f2ee"}

TIP = (
    '<defs><marker id="tip" viewBox="0 0 8 8" refX="7" refY="4" markerWidth="7" markerHeight="7" orient="auto">'
    '<path d="M0 0L8 4L0 8z" fill="#555"/></marker></defs>'
)

STYLE = """body { font: 15px/1.45 sans-serif; margin: 2em auto; max-width: 1160px; color: #222; background: #fff }
svg { display: block; width: 100%; height: auto } svg text { font: 12px sans-serif; fill: #222 }
h1 { font-size: 1.4em } h2 { font-size: 1.1em; margin-top: 1.6em }
td, th { padding: 2px 12px 2px 0; text-align: right } td:first-child, td:last-child { text-align: left }
pre { font: 13px/1.5 monospace; margin: 0 } pre i { display: inline-block; width: .8em; height: .8em; margin-right: .6em; border: 1px solid #777 }
a { color: #1b4f8a } .more { color: #777 } #said { font-weight: bold; min-height: 1.5em } svg text.drawn { font-size: 10px; fill: #a03020 }
.later { opacity: 0.12 } .now rect { stroke: #c0392b; stroke-width: 2 } .now text { fill: #c0392b; font-weight: bold } .now path { stroke-width: 2.5 }
"""


def page(title, body):
    """The lines of a page."""
    yield "<!DOCTYPE html>"
    yield f'<html lang="en"><head><meta charset="utf-8"><title>{escape(title)}</title><style>'
    yield STYLE + "</style></head><body>"
    yield f"<h1>{escape(title)}</h1>"
    yield from body
    yield "</body></html>"


# -- images --------------------------------------------------------------------------------------------------------------------


def image_page(image, chunks, name):
    """A page on these chunks of an image."""
    shown = chunks[:CHUNKS]
    items = {chunk: list(image.items(chunk)) for chunk in chunks}
    return page(name, image_body(image, chunks, shown, items))


def image_body(image, chunks, shown, items):
    yield from kinds_table(chunks, items)
    yield "<h2>Chunks</h2>"
    if len(shown) < len(chunks):
        yield f'<p class="more">The first {len(shown)} of {len(chunks):,}; <code>--chunk C-D</code> shows others.</p>'
    yield from bars(image, shown, items)
    if image.kind == ADDRESS_ANSWER:
        yield "<h2>The answer</h2>"
        yield from tree(image, image.answer)
    else:
        yield f"<h2>The answer</h2><p>{escape(image.answer_words())}</p>"
    if image.loaded:
        yield "<h2>The loaded input</h2>"
        yield from tree(image, 0)


def kinds_table(chunks, items):
    """How many bytes there are of each kind; the legend too."""
    whole = CHUNK * len(chunks) or 1
    yield "<table>"
    for kind, told in KINDS.items():
        count = sum(size for chunk in chunks for _, one, size in items[chunk] if one == kind)
        box = f'<svg style="width:1em;height:1em;display:inline" viewBox="0 0 10 10"><rect width="10" height="10" fill="{COLOURS[kind]}" stroke="#777"/></svg>'
        yield f"<tr><td>{box} {kind}</td><td>{count:,} bytes</td><td>{100 * count / whole:.1f} %</td><td>{told}</td></tr>"
    yield "</table>"


def bars(image, shown, items):
    """A bar for each chunk, coloured by what stands there, and arrows from what leads elsewhere."""
    used = max((at + size - CHUNK * chunk for chunk in shown for at, kind, size in items[chunk] if kind != "free"), default=0)
    scale = (WIDTH - LABEL) / min(CHUNK, max(used, 64) * 1.12)
    rows = {chunk: row for row, chunk in enumerate(shown)}

    def place(at):
        """Where an address stands: across, and down to its bar's upper edge."""
        return LABEL + (at % CHUNK) * scale, 30 + rows[at // CHUNK] * (BAR + GAP)

    yield f'<svg viewBox="0 0 {WIDTH} {40 + len(shown) * (BAR + GAP)}" role="img" aria-label="chunks">'
    yield TIP
    for chunk in shown:
        yield f'<text x="0" y="{place(CHUNK * chunk)[1] + 17:.0f}">chunk {chunk}</text>'
        yield from bar(image, items[chunk], place, scale)
    yield from arrows(image, [at for chunk in shown for at, kind, _ in items[chunk] if kind not in ("free", "work")], place, rows)
    yield "</svg>"


def bar(image, items, place, scale):
    """The items of a chunk: those too narrow for a name are joined with their neighbours of the same kind."""
    begun = None
    for at, kind, size in [*items, (None, None, 0)]:
        wide = kind not in (None, "free") and size * scale >= 44
        if begun and (kind != begun[1] or wide):
            yield rect(place, *begun, scale, "")
            begun = None
        if wide:
            yield rect(place, at, kind, size, scale, image_name(image, at))
        elif kind is not None:
            begun = (begun[0], kind, begun[2] + size) if begun else (at, kind, size)


def image_name(image, at):
    try:
        return "→" if image.memory[at] >= INDIRECTION else image.head(at, offsets=False)
    except Torn:
        return ""


def rect(place, at, kind, size, scale, name):
    """A piece of a bar with its name."""
    x, y = place(at)
    width = min(size * scale, WIDTH - x)
    told = f"{at}: {kind}, {size} bytes {name}"
    label = f"{size:,} bytes free" if kind == "free" and width > 90 else name[: int(width / 7)]
    return (
        f'<g><title>{escape(told)}</title><rect x="{x:.1f}" y="{y}" width="{max(width, 0.4):.1f}" height="{BAR}" fill="{COLOURS[kind]}"'
        f' stroke="#777" stroke-width="{0.6 if width > 3 else 0}"/><text x="{x + 4:.1f}" y="{y + 17}">{escape(label)}</text></g>'
    )


def arrows(image, places, place, rows):
    """An arrow from each item that leads elsewhere to what it leads to; those of offsets are pale."""
    links = [(at, to, image.memory[at] >= INDIRECTION) for at in places for to in image.leads_to(at)]
    links = [link for link in links if link[1] // CHUNK in rows]
    if len(links) > ARROWS:
        yield f'<text x="{LABEL}" y="14">{len(links):,} arrows, too many to be drawn: --chunk shows fewer</text>'
        return
    for at, to, far in links:
        (x, y), (u, v) = place(at), place(to)
        x, u, middle = x + 5, u + 3, (x + u) / 2
        if v == y:
            height = min(8 + abs(u - x) / 12, 26)
            path = f"M{x:.1f} {y}C{x:.1f} {y - height:.1f} {u:.1f} {y - height:.1f} {u:.1f} {y}"
        else:
            start, end = (y + BAR, v) if v > y else (y, v + BAR)
            path = f"M{x:.1f} {start}C{middle:.1f} {(start + end) / 2:.1f} {middle:.1f} {(start + end) / 2:.1f} {u:.1f} {end}"
        colour = "#555" if far else "#bbb"
        yield f'<path d="{path}" fill="none" stroke="{colour}" marker-end="url(#tip)"/>'


def tree(image, root):
    """The value at an address, children indented. What an indirection leads to stands behind it by name, and is drawn where it was first met."""
    yield "<pre>"
    due, at, count, later, drawn = [1], root, 0, [], set()
    while due or later:
        if count >= TREE:
            yield '<span class="more">.. and more</span>'
            break
        if not due:
            at, due = later.pop(0), [1]
            if at in drawn:
                due = []
                continue
            yield f'\n<span class="more">at {at}:</span>'
        drawn.add(at)
        item, level = image.item(at), min(len(due) - 1, 40)
        yield tree_line(image, at, level)
        count += 1
        if item.following == item.leads:
            at = item.leads
            continue
        if item.leads is not None:
            later.append(item.leads)
        due[-1] -= 1
        if item.packed:
            due.append(item.packed)
        while due and not due[-1]:
            due.pop()
        at = item.following
    yield "</pre>"


def tree_line(image, at, level):
    """An item: its address, its colour, its words, with a link where it leads."""
    words = escape(image.head(at, offsets=False))
    leads = image.item(at).leads
    if leads is not None:
        words = f'<a href="#a{leads}">{words}</a>'
    kind = image.kind_at(at) or "work"
    return f'<span id="a{at}">{at:>8}</span> {"  " * level}<i style="background:{COLOURS[kind]}"></i>{words}'


# -- journals ------------------------------------------------------------------------------------------------------------------

# A lane is so high, and its middle so far below the upper edge.
LANE, MIDDLE = 48, 34

PLAYER = """const shapes = [...document.querySelectorAll('[data-n]')], said = document.getElementById('said'), bar = document.getElementById('bar');
let at = words.length - 1, timer = null;
function show(n) {
  at = Math.min(Math.max(n, 0), words.length - 1);
  for (const shape of shapes) {
    shape.classList.toggle('later', +shape.dataset.n > at);
    shape.classList.toggle('now', +shape.dataset.n === at);
  }
  said.textContent = words[at];
  bar.value = at;
}
function play() {
  if (timer) { clearInterval(timer); timer = null; return; }
  if (at === words.length - 1) show(0);
  timer = setInterval(() => at < words.length - 1 ? show(at + 1) : play(), Math.max(20, Math.min(700, 20000 / words.length)));
}
const keys = { ArrowRight: () => show(at + 1), ArrowLeft: () => show(at - 1), Home: () => show(0), End: () => show(words.length - 1), ' ': play };
document.addEventListener('keydown', (event) => { if (keys[event.key]) { event.preventDefault(); keys[event.key](); } });
bar.max = words.length - 1;
bar.addEventListener('input', () => show(+bar.value));
document.getElementById('play').addEventListener('click', (event) => { event.target.blur(); play(); });
show(location.hash ? +location.hash.slice(1) : words.length - 1);
"""


def journal_page(journal, name, draws=()):
    """A page on a journal: a lane for each task, which a person can play. `draws` has for lines the chunks that are drawn there."""
    return page(name, journal_body(journal, dict(draws)))


def journal_body(journal, draws):
    told = ", ".join(f"{name} {value}" for name, value in journal.settings.items())
    counts = journal.total().counts
    yield f"<p>{told}. {len(journal.tasks):,} tasks make {counts['step']:,} steps; {counts['fork']:,} forks, of which {counts['steal']:,} are stolen."
    yield " To the right are steps in the journal's order, in which one task moves at a time.</p>"
    if len(journal.tasks) > LANES or len(journal.events) > EVENTS:
        yield f'<p class="more">The first {min(len(journal.tasks), LANES)} lanes and {min(len(journal.events), EVENTS):,} events.</p>'
    if 2 in draws:
        yield f"<p>The input stands in {chunks_told(draws[2])}.</p>"
    yield '<p><button id="play">play</button> <input id="bar" type="range" min="0" style="width:60%"> keys: ← → Home End, blank plays</p><p id="said"></p>'
    yield from lanes(journal, draws)
    yield "<p><b>▾</b> a fork: a side waits. <b>●</b> a side is stolen, and becomes a task. <b>▴</b> the task goes on with a side that nobody stole."
    yield " <b>■</b> the task has put its answer. <b>◆</b> an answer is joined. <b>c3</b> chunk 3 is drawn there.</p>"
    words = [event_words(event, draws) for event in journal.events[:EVENTS]]
    yield f"<script>const words = {json.dumps(words)};\n{PLAYER}</script>"


MARKS = {"fork": "▾", "steal": "●", "take": "▴", "finish": "■", "join": "◆"}


def event_words(event, draws):
    """What happens in an event, for a person."""
    told = {
        "step": f"makes {event.steps:,} steps",
        "fork": "begins a fork: its right side waits",
        "steal": f"has its side stolen by task {event.other}",
        "take": "goes on with the side that nobody stole",
        "finish": "has put its answer",
        "join": f"takes the answer of task {event.other}",
    }[event.what]
    chunks = draws.get(event.line, ())
    drawn = f", and draws {chunks_told(chunks)}" if chunks else ""
    return f"line {event.line}: task {event.task} {told}{drawn}"


def in_short(chunks):
    """Numbers of chunks, those that follow one another as `first-last`."""
    runs = []
    for chunk in chunks:
        if runs and runs[-1][1] == chunk - 1:
            runs[-1][1] = chunk
        else:
            runs.append([chunk, chunk])
    return " ".join(str(first) if first == last else f"{first}-{last}" for first, last in runs)


def chunks_told(chunks):
    """The chunks that are drawn, with the word in front of their numbers."""
    return f"chunk{'s' * (len(chunks) > 1)} {in_short(chunks)}"


def lanes(journal, draws):
    """The lanes as a drawing. Each event takes the width of its steps, and a little of its own."""
    events = journal.events[:EVENTS]
    shown = min(len(journal.tasks), LANES)
    steps = sum(event.steps for event in events) or 1
    own = min(14, 0.6 * (WIDTH - LABEL) / max(len(events), 1))
    scale = max(WIDTH - LABEL - own * len(events) - 10, 10) / steps
    left = {event.line: LABEL + place * own + event.clock * scale for place, event in enumerate(events)}
    yield f'<svg viewBox="0 0 {WIDTH} {20 + shown * LANE}" role="img" aria-label="tasks">'
    yield TIP
    for task in range(shown):
        lane, y = journal.tasks[task], MIDDLE + task * LANE
        start, end = left.get(lane.first, WIDTH), left.get(lane.last, WIDTH)
        yield f'<text x="0" y="{y + 4}">task {task}</text><path d="M{start:.1f} {y}H{end:.1f}" stroke="#bbb"/>'
    for place, event in enumerate(events):
        if event.task < shown:
            drawn = in_short(draws.get(event.line, ()))[:40]
            yield f'<g data-n="{place}"><title>{escape(event_words(event, draws))}</title>'
            yield from lane_event(event, left[event.line], own, scale, shown)
            if drawn:
                yield f'<text class="drawn" x="{left[event.line]:.1f}" y="{MIDDLE + event.task * LANE - 12}">c{drawn}</text>'
            yield "</g>"
    yield "</svg>"


def lane_event(event, x, own, scale, shown):
    """An event in its lane; a fork has an arrow down, a steal and a join have one to or from the other task's lane."""
    y = MIDDLE + event.task * LANE
    if event.what == "step":
        yield f'<rect x="{x:.1f}" y="{y - 8}" width="{max(event.steps * scale, 0.8):.1f}" height="16" fill="#7fb0dd"/>'
        return
    if own > 3:
        yield f'<text x="{x + own / 2 - 4:.1f}" y="{y + 4}">{MARKS[event.what]}</text>'
    if event.what == "fork":
        yield f'<path d="M{x + own / 2:.1f} {y + 8}v9" stroke="#555" marker-end="url(#tip)"/>'
    if event.other is not None and event.other < shown:
        other = MIDDLE + event.other * LANE
        start, end = (y, other) if event.what == "steal" else (other, y)
        step = 9 if end > start else -9
        colour = "#c0612b" if event.what == "steal" else "#3f8f4f"
        yield f'<path d="M{x + own / 2:.1f} {start + step}V{end - step}" stroke="{colour}" marker-end="url(#tip)"/>'


def trace_events(journal, draws=()):
    """A journal as Perfetto and Chrome's tracing take it: a thread for each task, a microsecond for each step and each other event, arrows for steals and
    joins."""
    draws, events = dict(draws), []
    for lane in journal.tasks:
        events.append({"ph": "M", "name": "thread_name", "pid": 0, "tid": lane.number, "args": {"name": f"task {lane.number}"}})
    for place, event in enumerate(journal.events):
        at = {"pid": 0, "tid": event.task, "ts": event.clock + place}
        args = {"line": event.line, "told": event_words(event, draws)}
        if event.line in draws:
            args["chunks"] = list(draws[event.line])
        events.append({"ph": "X", "name": event.what, "dur": event.steps or 1, "args": args, **at})
        if event.other is not None:
            ends = [at, {**at, "tid": event.other}] if event.what == "steal" else [{**at, "tid": event.other, "ts": at["ts"] - 1}, at]
            flow = {"name": event.what, "cat": "side", "id": place}
            events += [{"ph": "s", **flow, **ends[0]}, {"ph": "f", "bp": "e", **flow, **ends[1]}]
    yield json.dumps({"traceEvents": events, "displayTimeUnit": "ns"})
