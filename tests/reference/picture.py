"""The parts of a picture that `temu chart` prints (docs/MACHINE.md, section 15, Chart): elements of SVG, and the shapes
and titles of marks."""
import collections

from channels import ALTERNATIVE, OnLink
from words import address

ROWS, FULL_ROWS, LANES, SHOWN = 2000, 1300, 6, 8
# The layers, each above those before it.
PAUSES, ARROWS, BOXES = range(3)
KEY = {
    "output": "waits for output on a link",
    "input": "waits for input on a link",
    "alternative": "waits for an alternative",
    "channel": "waits on an internal channel",
}
STYLE = """\
<style>
text { font: 12px monospace; fill: #1a1a1a; }
.name, .count { text-anchor: middle; }
.name { font-weight: bold; }
.label, .beside { stroke: #ffffff; stroke-width: 3px; paint-order: stroke; }
.label { pointer-events: none; }
.paper, .input { fill: #ffffff; }
.column { stroke: #c4c4c4; }
.run { fill: #e4e8ee; stroke: #8a94a3; }
.way { stroke: #1a1a1a; marker-end: url(#head); }
.head, .begin, .halt { fill: #1a1a1a; }
.output { fill: #c05a00; stroke: #c05a00; }
.input { stroke: #2470c4; }
.alternative { fill: url(#slanted); stroke: #8a3fb0; }
.channel { fill: url(#barred); stroke: #2e7d32; }
.slant { fill: #8a3fb0; }
.rung { fill: #2e7d32; }
.freeze { fill: #c81e1e; }
@media (prefers-color-scheme: dark) {
text { fill: #e8e8e8; }
.label, .beside { stroke: #14171c; }
.paper, .input { fill: #14171c; }
.column { stroke: #4a4f57; }
.run { fill: #2c333d; stroke: #7c8796; }
.way { stroke: #e8e8e8; }
.head, .begin, .halt { fill: #e8e8e8; }
.output { fill: #f29a4a; stroke: #f29a4a; }
.input { stroke: #6aa9ef; }
.alternative { stroke: #c08be0; }
.channel { stroke: #7cc47f; }
.slant { fill: #c08be0; }
.rung { fill: #7cc47f; }
.freeze { fill: #ff6b6b; }
}
</style>
<defs><marker id='head' viewBox='0 0 8 8' refX='8' refY='4'
markerWidth='8' markerHeight='8' orient='auto'>
<path class='head' d='M0 0 L8 4 L0 8 z'/></marker>
<pattern id='slanted' width='4' height='4' patternUnits='userSpaceOnUse'
patternTransform='rotate(45)'>
<rect class='slant' width='2' height='4'/></pattern>
<pattern id='barred' width='8' height='6' patternUnits='userSpaceOnUse'>
<rect class='rung' width='8' height='2'/></pattern></defs>
<rect class='paper' width='100%' height='100%'/>
"""

# What is drawn: its layer, the lowest of its rows, how far it reaches to the right, its title, its shape, and a text
# that is above all shapes.
Mark = collections.namedtuple("Mark", "layer last reach title shape label", defaults=("",))


def x_of(column):
    return 240 * column + 84


def y_of(row):
    return 24 * row + 144


def element(name, kind, end="/>", **values):
    return f"<{name} class='{kind}'" + "".join(f" {key}='{value}'" for key, value in values.items()) + end


def text(kind, x, y, told):
    return element("text", kind, f">{told}</text>", x=x, y=y)


def events_told(first, last):
    return f"event {first}" if first == last else f"events {first} to {last}"


def process_told(process):
    return "" if process is None else f", process {address(process)}"


def reason_told(reason):
    """Returns the kind of what a process waits for, and what it is."""
    if reason == ALTERNATIVE:
        return "alternative", "an alternative"
    way = "input" if reason.is_input else "output"
    if isinstance(reason, OnLink):
        return way, f"{way} on link {reason.link}"
    return "channel", f"{way} on channel {address(reason.channel)}"


def digits(number):
    """Returns how many digits a number has at most."""
    return 1 if number < 10 else 2 if number < 100 else 4 if number < 10_000 else 10


def steps(node, row, first, last, count, process):
    """Returns the mark of steps in one row."""
    x, y = x_of(node), y_of(row)
    told = "1 step" if count == 1 else f"{count} steps"
    title = f"node {node}: {events_told(first, last)}, {told}{process_told(process)}"
    box = element("rect", "run", x=x - 4, y=y - 9, width=64, height=18)
    return Mark(BOXES, row, 0, title, box + text("count", x + 28, y + 4, count))


def pause(node, lane, wait, row, last):
    """Returns the mark of a wait down to a row; `last` is the event with which it is over, if it is."""
    kind, told = reason_told(wait.reason)
    when = f"from event {wait.first} on" if last is None else events_told(wait.first, last)
    title = f"node {node}: {when}, waits for {told}{process_told(wait.process)}"
    x, y = x_of(node) - 16 - 10 * lane, y_of(wait.row) - 11
    shape = element("rect", kind, x=x, y=y, width=8, height=24 * (row + 1 - wait.row) - 2)
    return Mark(PAUSES, row, 0, title, shape)


def dot(node, row, event, link, process):
    """Returns the mark where a message begins."""
    title = f"node {node}: event {event}, a message begins on link {link}{process_told(process)}"
    return Mark(BOXES, row, 0, title, element("circle", "begin", cx=x_of(node), cy=y_of(row), r=4))


def arrow(sender, receiver, begun, row, events, content, process):
    """Returns the mark of a message, between two ends and rows."""
    told = f"{len(content)}: {content[:SHOWN].hex()}{'..' if len(content) > SHOWN else ''}"
    ends = f"{sender[0]}.{sender[1]} to {receiver[0]}.{receiver[1]}"
    title = f"message {ends}: {events_told(*events)}, {told}{process_told(process)}"
    x, y = x_of(sender[0]), y_of(begun)
    shape = element("line", "way", x1=x, y1=y, x2=x_of(receiver[0]), y2=y_of(row))
    letters = digits(len(content)) + 2 * min(len(content), SHOWN) + 4
    return Mark(ARROWS, row, x + 10 + 8 * letters, title, shape, text("label", x + 10, y - 4, told))


def stop(node, row, event, name=None):
    """Returns the mark of a halt, or of a freeze with the name of its break."""
    kind, told = ("halt", "halt") if name is None else ("freeze", f"freeze {name}")
    x, y = x_of(node), y_of(row)
    shape = element("rect", kind, x=x - 6, y=y - 6, width=12, height=12) + text("beside", x + 12, y + 4, told)
    return Mark(BOXES, row, 0 if name is None else x + 196, f"node {node}: event {event}, {told}", shape)


def key():
    """Returns the lines that tell the kinds of pauses."""
    lines = []
    for y, (kind, told) in zip(range(20, 92, 18), KEY.items()):
        lines.append(element("rect", kind, x=12, y=y - 10, width=8, height=12) + text("beside", 28, y, told))
    return lines


def column(number, kind, rows):
    """Returns a column: its name and a line."""
    x = x_of(number)
    return text("name", x, 120, f"{kind} {number}") + element("line", "column", x1=x, y1=132, x2=x, y2=y_of(rows) + 14)


def head(columns, rows, marks):
    """Returns the first line of a picture."""
    width = 12 + max([268, 240 * columns - 84, *(it.reach for it in marks)])
    height = y_of(rows) + 64
    shown = [2 * it // 3 if rows > FULL_ROWS else it for it in (width, height)]
    begun = f"<svg xmlns='http://www.w3.org/2000/svg' width='{shown[0]}' height='{shown[1]}'"
    return f"{begun} viewBox='0 0 {width} {height}'>"


def lacks(lowest, is_crowded, y):
    """Returns lines that tell what is not drawn."""
    told = [(y, "only the first 2000 rows are drawn", lowest > ROWS)]
    told += [(y + 14, "at most 6 waits of a node are drawn", is_crowded)]
    return [text("beside", 12, at, it) for at, it, holds in told if holds]


def whole(kinds, marks, lowest, is_crowded):
    """Returns a picture, by what its columns are of, and its marks."""
    rows = min(lowest, ROWS)
    lines = [head(len(kinds), rows, marks), *STYLE.splitlines(), *key(), *lacks(lowest, is_crowded, 90)]
    lines += [column(number, kind, rows) for number, kind in enumerate(kinds)]
    for layer in (PAUSES, ARROWS, BOXES):
        lines += [f"<g><title>{it.title}</title>{it.shape}</g>" for it in marks if it.layer == layer]
    lines += [it.label for it in marks if it.label]
    lines += [*lacks(lowest, is_crowded, y_of(rows) + 36), "</svg>"]
    return "".join(f"{line}\n" for line in lines)
