"""The packet machine (docs/MACHINE.md, sections 9, 10 and 12): nodes, sources and sinks, what lies at the ends of their
wires, the events, and what a run of them tells."""
import collections
import dataclasses
from typing import Optional

from memory import Break
from processor import Processor
from words import FIRST, LOWEST

LINKS, MESSAGES, LONGEST, CAPACITY, PARTS, WIRES, TIMESLICE = 4, 256, 4096, 65536, 64, 128, 65536
SIZES = {1: 1 << 20, 2: 1 << 24}
ACTS = ("run", "send", "data", "take", "ack")
# An event: the number of its node, source or sink, its act, and its link, which a run has not.
Event = collections.namedtuple("Event", "number act link", defaults=(None,))


class BadNet(Exception):
    """The fault of a plan that cannot be built."""


class NotEnabled(Exception):
    """An event that is not enabled."""


@dataclasses.dataclass
class NodePlan:
    """A node: its memory in bytes, its kind, and its image as segments and processes."""

    memory: int
    segments: list
    processes: list
    kind: int = 1


@dataclasses.dataclass
class Plan:
    """What a net is built from: sources are pairs (end, messages), sinks (end, capacity), wires pairs of ends, and an
    end is (node, link)."""

    nodes: list
    wires: list
    sources: list = dataclasses.field(default_factory=list)
    sinks: list = dataclasses.field(default_factory=list)
    timeslice: int = 1024


@dataclasses.dataclass
class Source:
    """Offers its messages one after another at link 0."""

    messages: list
    done: int = 0
    is_halted = False

    def copy(self):
        return dataclasses.replace(self)

    def has_step(self):
        return False

    def output(self, link):
        return self.messages[self.done] if link == 0 and self.done < len(self.messages) else None

    def finish_output(self, link):
        self.done += 1

    def awaits(self, link):
        return None


@dataclasses.dataclass
class Sink:
    """Takes whatever comes at link 0, as long as it has room; it names no length."""

    capacity: int
    kept: list = dataclasses.field(default_factory=list)
    part: bytes = b""
    is_halted = False
    ANY = 0

    def copy(self):
        return dataclasses.replace(self, kept=self.kept[:])

    def has_step(self):
        return False

    def output(self, link):
        return None

    def awaits(self, link):
        return Sink.ANY if link == 0 else None

    def room(self):
        return self.capacity - sum(map(len, self.kept))

    def has_room(self, link, place):
        return place < self.room()

    def receive(self, link, place, content):
        self.part += content

    def finish_input(self, link):
        self.kept.append(bytes(self.part))
        self.part = b""
        return self.kept[-1]


@dataclasses.dataclass
class End:
    """One side of a wire: the counts, the byte that waits, and the packets that lie there; a byte has its mark."""

    sent: int = 0
    acked: int = 0
    got: int = 0
    arrived: Optional[tuple] = None
    data: Optional[tuple] = None
    ack: bool = False


def build(plan):
    """Returns the nodes, sources and sinks of a plan, and the far end of each end."""
    judge(plan)
    parts = [node_of(number, it, plan.timeslice) for number, it in enumerate(plan.nodes)]
    far = {}
    for a, b in plan.wires:
        far[a], far[b] = b, a
    for kind, scripts in ((Source, plan.sources), (Sink, plan.sinks)):
        for end, content in scripts:
            far[end], far[len(parts), 0] = (len(parts), 0), end
            parts.append(kind(content))
    for number, (_, capacity) in enumerate(plan.sinks):
        if not 1 <= capacity <= CAPACITY:
            raise BadNet(f"N9 BadCapacity {number}")
    return parts, far


def judge(plan):
    """Refuses a plan with one of the faults N1 to N6."""
    counts = [len(plan.nodes) + len(plan.sources) + len(plan.sinks) <= PARTS, len(plan.wires) <= WIRES]
    counts += [len(messages) <= MESSAGES for _, messages in plan.sources]
    counts += [1 <= len(it) <= LONGEST for _, messages in plan.sources for it in messages]
    if not all(counts):
        raise BadNet("N1 TooMany")
    for number, node in enumerate(plan.nodes):
        if not 2048 <= node.memory <= SIZES[node.kind] or node.memory % 4:
            raise BadNet(f"N2 BadSize {number}")
    if not 1 <= plan.timeslice <= TIMESLICE:
        raise BadNet("N3 BadTimeslice")
    places = [*plan.wires, *([end] for end, _ in plan.sources), *([end] for end, _ in plan.sinks)]
    for place, ends in enumerate(places):
        if not all(node < len(plan.nodes) and link < LINKS for node, link in ends):
            raise BadNet(f"N4 BadEnd {place}")
    for place, (a, b) in enumerate(plan.wires):
        if a == b:
            raise BadNet(f"N5 SameEnd {place}")
    used = set()
    for place, ends in enumerate(places):
        if used.intersection(ends):
            raise BadNet(f"N6 EndTwice {place}")
        used.update(ends)
    for number, node in enumerate(plan.nodes):
        for place, (address, content) in enumerate(node.segments):
            if len(content) and not FIRST <= address <= LOWEST + node.memory - len(content):
                raise BadNet(f"N7 BadSegment {number} {place}")


def node_of(number, plan, timeslice):
    """Returns the processor of a node, loaded."""
    node = Processor(plan.memory, plan.kind, timeslice)
    for address, content in plan.segments:
        if content:
            node.memory.set(address, content)
    for place, process in enumerate(plan.processes):
        try:
            node.add(*process)
        except Break as fault:
            raise BadNet(f"N8 BadProcess {number} {place} {fault}") from fault
    return node


def links_of(part):
    """Returns the numbers of the links of a node, a source or a sink."""
    return range(LINKS if isinstance(part, Processor) else 1)


class Net:
    """A net of a plan before its first event; `notes` are the lines of its trace, `done` is the number of events so
    far, and `halts` are those that halted a node: the node, the event, and the instruction with its address."""

    def __init__(self, plan):
        self.plan = plan
        self.parts, self.far = build(plan)
        self.frozen = [None] * len(self.parts)
        self.ends = {end: End() for end in self.links()}
        self.notes, self.done, self.halts = [], 0, []

    def links(self):
        """Yields each link of each node, source and sink, with a wire or without."""
        for number, part in enumerate(self.parts):
            yield from ((number, link) for link in links_of(part))

    def can(self, event):
        """Tells whether an event is enabled."""
        number, act, link = event
        if not number < len(self.parts) or self.frozen[number]:
            return False
        part = self.parts[number]
        if act == "run":
            return link is None and part.has_step()
        end = self.ends.get((number, link))
        return end is not None and getattr(self, f"can_{act}")(number, part, end, link)

    def can_send(self, number, part, end, link):
        output = part.output(link)
        return (number, link) in self.far and output is not None and end.acked == end.sent < len(output)

    def can_data(self, number, part, end, link):
        return end.data is not None and end.arrived is None and not isinstance(part, Source)

    def can_take(self, number, part, end, link):
        return end.arrived is not None and part.awaits(link) is not None and part.has_room(link, end.got)

    def can_ack(self, number, part, end, link):
        return end.ack and part.output(link) is not None and end.sent == end.acked + 1

    def do(self, event):
        """Does an event, which has to be enabled; returns the packet that it emits, if any."""
        if not self.can(event):
            raise NotEnabled
        number, act, link = event
        part, end = self.parts[number], self.ends.get((number, link))
        try:
            return getattr(self, f"do_{act}")(number, part, end, link)
        except Break as fault:
            self.frozen[number] = str(fault)
            self.notes.append(f"freeze {number} {fault}")
            return None
        finally:
            self.done += 1

    def do_run(self, number, part, end, link):
        iptr = part.iptr
        part.step()
        if part.is_halted:
            self.notes.append(f"halt {number}")
            # What sets Error writes no memory, so the instruction is still there.
            self.halts.append((number, self.done, iptr, part.text_at(iptr)))

    def do_send(self, number, part, end, link):
        output = part.output(link)
        self.ends[self.far[number, link]].data = (output[end.sent], end.sent + 1 == len(output))
        end.sent += 1

    def do_data(self, number, part, end, link):
        end.arrived, end.data = end.data, None
        if part.awaits(link) is None:
            part.notice(link)

    def do_take(self, number, part, end, link):
        (byte, is_last), length = end.arrived, part.awaits(link)
        if length != Sink.ANY and is_last != (end.got + 1 == length):
            raise Break("LengthMismatch")
        part.receive(link, end.got, bytes([byte]))
        end.arrived, end.got = None, end.got + 1
        self.ends[self.far[number, link]].ack = True
        if is_last:
            end.got = 0
            self.tell_message(self.far[number, link], (number, link), part.finish_input(link))

    def tell_message(self, sender, receiver, message):
        """Notes that a whole message has come."""
        ends = f"{sender[0]}.{sender[1]} {receiver[0]}.{receiver[1]}"
        self.notes.append(f"msg {ends} {len(message)} {message.hex()}")

    def do_ack(self, number, part, end, link):
        end.ack, end.acked = False, end.acked + 1
        if end.acked == len(part.output(link)):
            end.sent = end.acked = 0
            part.finish_output(link)

    def events(self):
        """Yields each event that is enabled."""
        for number, part in enumerate(self.parts):
            if self.can(Event(number, "run")):
                yield Event(number, "run")
            for link in links_of(part):
                yield from (it for act in ACTS[1:] if self.can(it := Event(number, act, link)))

    def is_quiet(self):
        return next(self.events(), None) is None
