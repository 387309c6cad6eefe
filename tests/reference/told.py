"""What `temu explore` prints, as it is written and read back (docs/MACHINE.md, section 16)."""
import re

import files
import rounds
from formats import dump_of, place_of

HEADING = re.compile(r"outcome (\d+) (ended|idle|stuck|freeze \d+ \w+(?: #[0-9a-f]{8})?)")


def text_of(found, rest):
    """Returns the text of outcomes and freezes, as pairs of a heading and the lines of a dump, and of lines after
    them."""
    lines = []
    for number, (heading, dump) in enumerate(found, 1):
        alike = (at for at, (word, other) in enumerate(found[: number - 1], 1)
                 if word == heading and list(map(place_of, other)) == list(map(place_of, dump)))
        like = next(alike, None)
        lines.append(f"outcome {number} {heading}")
        lines += [f"as {like} but", *changes(found[like - 1][1], dump)] if like else dump
    return "".join(f"{it}\n" for it in [*lines, *rest])


def changes(earlier, dump):
    """Yields the lines of a dump that differ from an earlier one, those of a node after the node's own line."""
    heading = told = ""
    for line, other in zip(dump, earlier):
        if place_of(line) == line:
            heading = line
        elif line != other:
            yield from [heading, line] if heading != told else [line]
            told = heading


def whole_dump(lines, earlier):
    """Returns the lines of a dump from those that are printed: all of them, or `as J but` and what differs from one of
    the earlier dumps, which are whole."""
    found = re.fullmatch(r"as (\d+) but", lines[0]) if lines else None
    if not found:
        return lines
    changed, heading = {}, ""
    for line in lines[1:]:
        if place_of(line) == line:
            heading = line
        else:
            changed[heading, place_of(line)] = line
    whole = []
    for line in earlier[int(found[1]) - 1]:
        heading = line if place_of(line) == line else heading
        whole.append(changed.get((heading, place_of(line)), line))
    return whole


class Told:
    """What an exploration told: outcomes and freezes, as pairs of a heading, such as `stuck` or `freeze 0 InTransit
    #8000009b`, and the lines of a dump; and the lines after them."""

    def __init__(self, text):
        self.text, self.found, self.rest = text, [], []
        for line in text.splitlines():
            heading = HEADING.fullmatch(line)
            if heading and int(heading[1]) == len(self.found) + 1:
                self.found.append((heading[2], []))
            elif re.match("end |endless$", line) or not self.found:
                self.rest.append(line)
            else:
                self.found[-1][1].append(line)
        for place, (heading, lines) in enumerate(self.found):
            self.found[place] = heading, whole_dump(lines, [dump for _, dump in self.found[:place]])
        self.outcomes = [it for it in self.found if not it[0].startswith("freeze ")]
        self.freezes = [heading.removeprefix("freeze ") for heading, _ in self.found if heading.startswith("freeze ")]
        self.is_endless, self.last = "endless" in self.rest, self.rest[-1] if self.rest else ""

    def is_short(self):
        """Tells whether each dump is told as shortly as it has to be."""
        return self.text == text_of(self.found, self.rest)

    def is_beginning(self, whole):
        """Tells whether it was cut, and is the beginning of the text of the whole exploration."""
        return self.last.startswith("end cut outcomes ") and whole.startswith(self.text[: -len(self.last) - 1])

    def astray(self, plan, prefix):
        """Yields the number of each outcome and freeze to which its log does not lead."""
        for number, (heading, dump) in enumerate(self.found, 1):
            net = files.net_of(plan)
            early = rounds.replay(net, files.read_events(f"{prefix}{number}.log"))
            is_there = any(net.frozen) if heading.startswith("freeze ") else net.is_quiet() and not any(net.frozen)
            if early is not None or dump_of(net) != dump or not is_there:
                yield number
