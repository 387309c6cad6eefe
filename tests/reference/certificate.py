"""A run of the process machine, and what its certificate tells of all runs of the net (docs/MACHINE.md, section 17)."""
import collections
import re

import races
from formats import place_of
from memory import rows_of
from net import Sink, Source
from places import Kind, Place
from process_machine import ProcessMachine


class Certificate:
    """A run of the process machine with its verdict, and the messages that each wire tells, by its two ends."""

    def __init__(self, net, most, **how):
        self.machine, self.messages = ProcessMachine(net), collections.defaultdict(list)
        self.verdict = races.certify(self.machine, most, tell=self.tell, **how)

    def tell(self, step):
        """Notes the message of a wire's step."""
        if step.message is not None:
            receiver = step.agent.node, step.agent.key
            ends = " ".join(f"{node}.{link}" for node, link in (self.machine.net.far[receiver], receiver))
            self.messages[ends].append(text_of(step.message))

    def dump(self):
        return list(dump_of(self.machine))

    def text(self):
        """Returns what is printed of a net that is certified."""
        return "\n".join(["certified", *self.dump(), f"end certified {self.verdict.steps}", ""])

    def told(self):
        """Returns what runs are compared with, as a text."""
        messages = [f"{ends} {it}" for ends, told in self.messages.items() for it in told]
        return "".join(f"{it}\n" for it in [*messages, *self.dump()])

    def agrees_with(self, dump):
        """Tells whether the dump of an end has each byte that is known here, and no node is frozen or halted."""
        known, shown = by_place(self.dump()), by_place(dump)
        pairs = [(known.get(it) or zeros(shown[it]), shown.get(it) or zeros(known[it])) for it in {**known, **shown}]
        return all(map(is_like, *zip(*pairs)))

    def has_told(self, trace):
        """Tells whether the messages of a trace are these, wire by wire."""
        told = collections.defaultdict(list)
        for line in trace:
            _, sender, receiver, _, content = line.split()
            told[f"{sender} {receiver}"].append(content)
        return told.keys() == self.messages.keys() and all(
            len(due) == len(told[ends]) and all(map(is_like, due, told[ends])) for ends, due in self.messages.items())


def text_of(cells):
    """Returns the digits of bytes, and `~~` for each that is unknown."""
    return "".join("~~" if it is None else f"{it:02x}" for it in cells)


def rows_at_end(machine, number):
    """Returns the lines of the memory of a node at the end."""
    words = (machine.value(Place(Kind.WORD, number, it)) for it in range(machine.sizes[number] // 4))
    cells = [cell for word in words for cell in word.cells]
    return rows_of(bytes(it or 0 for it in cells), bytes(it is None for it in cells), "~~")


def dump_of(machine):
    """Yields the lines that tell memories, sources and sinks."""
    for number, part in enumerate(machine.net.parts):
        if isinstance(part, Source):
            left = len(machine.value(Place(Kind.MESSAGES, number)))
            yield f"source {number} done {len(part.messages) - left} of {len(part.messages)}"
        elif isinstance(part, Sink):
            kept = machine.value(Place(Kind.KEPT, number))
            yield f"sink {number} messages {len(kept)}"
            yield from (f"kept {text_of(it)}" for it in kept)
        else:
            yield f"node {number} ok"
            yield from rows_at_end(machine, number)


def by_place(dump):
    """Returns the lines of a dump by place: rows of a memory by node and address, others by their order."""
    lines, others = {}, 0
    for line in dump:
        is_row = place_of(line) != line
        others += not is_row
        lines[(others, place_of(line)) if is_row else others] = line
    return lines


def zeros(line):
    """Returns the row that is not shown since it is all zeros, like a row that is shown; of other lines nothing."""
    return place_of(line) + " 00" * (len(line) // 3 - 3) if place_of(line) != line else ""


def is_like(known, shown):
    """Tells whether a text has each byte that is known in another one."""
    return re.fullmatch(known.replace("~~", ".."), shown) is not None
