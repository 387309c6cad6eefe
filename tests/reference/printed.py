"""What `run`, `free`, `replay` and `where` print of a net, with the status (docs/MACHINE.md, sections 15 and 16)."""
import json

from formats import dump_of
from net import Sink, Source
from standing import halted_lines, standing_of

# What `--show` shows of a net.
SHOWN = {"dump": dump_of, "where": standing_of, "none": lambda net: []}


def printed(net, last, show="dump", is_json=False):
    """Returns what a run or a replay prints, with its last line."""
    if is_json:
        parts = [] if show == "none" else [part_told(net, number) for number in range(len(net.parts))]
        return ended(net, map(json.dumps, [*map(note_told, net.notes), *parts, end_told(last)]))
    return ended(net, [*net.notes, *SHOWN[show](net), last])


def placed(net, last):
    """Returns what `where` prints, with its last line."""
    return ended(net, [*standing_of(net), *halted_lines(net), last])


def ended(net, lines):
    """Returns lines as a text, and the status by which a command ends that prints them."""
    return "".join(f"{it}\n" for it in lines), int(any(net.frozen))


def note_told(line):
    """Returns the object of a line of a trace."""
    kind, *words = line.split()
    if kind == "msg":
        ends = [list(map(int, it.split("."))) for it in words[:2]]
        return {"msg": {"from": ends[0], "to": ends[1], "bytes": words[3]}}
    number = int(words[0])
    return {"halt": number} if kind == "halt" else {"freeze": {"node": number, "break": words[1]}}


def part_told(net, number):
    """Returns the object of a node, a source or a sink."""
    part, frozen = net.parts[number], net.frozen[number]
    if isinstance(part, Source):
        return {"source": number, "done": part.done, "of": len(part.messages)}
    if isinstance(part, Sink):
        return {"sink": number, "kept": [it.hex() for it in part.kept]}
    state = {"state": "frozen", "break": frozen} if frozen else {"state": "halted" if part.is_halted else "ok"}
    rows = [{"at": line[:8], "bytes": line[9:].replace(" ", "")} for line in part.memory.dump()]
    return {"node": number, **state, "memory": rows}


def end_told(last):
    """Returns the object of the last line."""
    _, how, *number = last.split()
    return {"end": how, **{"events" if how == "replay" else "rounds": int(it) for it in number}}
