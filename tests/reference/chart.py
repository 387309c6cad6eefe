"""What `temu chart` draws of a run (docs/MACHINE.md, section 15, Chart): the rows of its marks, by causes alone."""
import collections
import dataclasses
from typing import Optional

import picture
from channels import OnLink
from net import Sink, Source
from picture import LANES, ROWS
from processes import LOW
from processor import Processor

# A process that waits from a row and an event on.
Wait = collections.namedtuple("Wait", "row first process reason")


@dataclasses.dataclass
class Box:
    """Steps of a node in one row, with the process of the first."""

    row: int
    first: int
    last: int
    count: int
    process: Optional[int]


@dataclasses.dataclass
class Way:
    """What is known of an end: row and event where the message that comes to it began, and the rows of the last byte
    and of the last acknowledge that went to it."""

    begun: tuple = (0, 0)
    sent: int = 0
    acked: int = 0


def below(row):
    """Returns the row below one; all rows below the last one that is drawn are one."""
    return row + 1 if row <= ROWS else row


def kind_of(part):
    return "source" if isinstance(part, Source) else "sink" if isinstance(part, Sink) else "node"


def runner(part):
    """Returns the process that a part runs, if any."""
    return part.own() if isinstance(part, Processor) and part.current is not None else None


def is_instruction(part):
    """Tells whether the next step is an instruction; else it is a dispatch."""
    return part.current is not None and not (part.current == LOW and part.queues[0])


class Chart:
    """The marks of a run of a net, as far as its events are done."""

    def __init__(self, net):
        count = len(net.parts)
        self.net, self.done, self.marks, self.lowest, self.is_crowded = net, 0, [], 0, False
        self.rows, self.boxes = [0] * count, [None] * count
        self.lanes = [[None] * LANES for _ in range(count)]
        self.ways = collections.defaultdict(Way)

    def draw(self, mark):
        if mark.last <= ROWS:
            self.marks.append(mark)

    def move(self, node, row):
        self.rows[node] = row
        self.lowest = max(self.lowest, row)

    def next_row(self, node):
        self.move(node, below(self.rows[node]))
        return self.rows[node]

    def close_box(self, node, box=None):
        """The last box of a node is drawn, and another one is its last."""
        if self.boxes[node]:
            self.draw(picture.steps(node, *dataclasses.astuple(self.boxes[node])))
        self.boxes[node] = box

    def reason(self, node, process):
        """Returns what a process of a node waits for, if it waits and its node is neither frozen nor halted."""
        part = self.net.parts[node]
        if self.net.frozen[node] or part.is_halted or not isinstance(part, Processor):
            return None
        return part.waiting.get(process)

    def wait(self, node, process):
        """A process waits from the row below on, if it waits."""
        reason = self.reason(node, process)
        if reason is None or runner(self.net.parts[node]) is not None:
            return
        row = below(self.rows[node])
        self.lowest = max(self.lowest, row)
        if None in self.lanes[node]:
            self.lanes[node][self.lanes[node].index(None)] = Wait(row, self.done, process, reason)
        else:
            self.is_crowded = True

    def end_wait(self, node, lane, row, last):
        """A wait is drawn down to a row, if it reaches there, and its lane is free."""
        wait, row = self.lanes[node][lane], min(row, ROWS)
        if wait.row <= row:
            self.draw(picture.pause(node, lane, wait, row, last))
        self.lanes[node][lane] = None

    def do(self, event):
        """Does an event, and draws what it did; one that is not enabled changes nothing."""
        if self.net.can(event):
            node = event.number
            before = self.before(event)
            self.net.do(event)
            if self.net.frozen[node]:
                self.stop(node, self.net.frozen[node])
            else:
                getattr(self, event.act)(node, event.link, *before)
            for lane, wait in enumerate(self.lanes[node]):
                if wait and self.reason(node, wait.process) is None:
                    self.end_wait(node, lane, self.rows[node], self.done)
        self.done += 1

    def before(self, event):
        """Returns what is to be known before an event: who does an instruction, if it is one; who sends and whether it
        is the first byte; who receives and how many lines the trace has."""
        part = self.net.parts[event.number]
        if event.act == "run":
            return [runner(part) if is_instruction(part) else None]
        known = {"send": self.net.ends[event.number, event.link].sent == 0, "take": len(self.net.notes)}
        if event.act not in known:
            return []
        wanted = OnLink(event.act == "take", event.link)
        waiting = part.waiting.items() if isinstance(part, Processor) else ()
        return [known[event.act], next((process for process, reason in waiting if reason == wanted), None)]

    def stop(self, node, name=None):
        self.close_box(node)
        self.draw(picture.stop(node, self.next_row(node), self.done, name))

    def run(self, node, _, process):
        box, who = self.boxes[node], runner(self.net.parts[node]) if process is None else process
        if box and box.row == self.rows[node]:
            box.last, box.count = self.done, box.count + 1
        else:
            self.close_box(node, Box(below(self.rows[node]), self.done, self.done, 1, who))
            self.next_row(node)
        if process is not None:
            self.wait(node, process)
        if self.net.parts[node].is_halted:
            self.stop(node)

    def send(self, node, link, is_first, process):
        to = self.ways[self.net.far[node, link]]
        if is_first:
            to.begun = self.next_row(node), self.done
            self.draw(picture.dot(node, self.rows[node], self.done, link, process))
        to.sent = self.rows[node]

    def data(self, node, link):
        self.move(node, max(self.rows[node], self.ways[node, link].sent))

    def take(self, node, link, told, process):
        sender, receiver = self.net.far[node, link], (node, link)
        if len(self.net.notes) > told:
            content, (row, first) = bytes.fromhex(self.net.notes[-1].split()[-1]), self.ways[receiver].begun
            events = first, self.done
            self.draw(picture.arrow(sender, receiver, row, self.next_row(node), events, content, process))
        self.ways[sender].acked = self.rows[node]

    def ack(self, node, link):
        self.move(node, max(self.rows[node], self.ways[node, link].acked))

    def text(self):
        """Draws what is open at the end, and returns the picture."""
        for node, lanes in enumerate(self.lanes):
            self.close_box(node)
            for lane, wait in enumerate(lanes):
                if wait:
                    self.end_wait(node, lane, self.lowest, None)
        return picture.whole([kind_of(it) for it in self.net.parts], self.marks, self.lowest, self.is_crowded)


def drawn(net, events):
    """Does events, and returns the picture of them."""
    chart = Chart(net)
    for event in events:
        chart.do(event)
    return chart.text()
