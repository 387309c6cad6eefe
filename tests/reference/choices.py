"""Draws orderly nets with alternatives: processes that choose between channels, in many nets links above all, and
guards without them, servers that take requests until they are told to stop, and multiplexers. Messages give an order to
the senders, or fail to, so some of these nets are certified (docs/MACHINE.md, section 17)."""
import draw
import orderly
from draw import LOCALS, MESSAGE, push_link
from orderly import OPEN_CHANNELS


class ChoosingNode(orderly.OrderlyNode):
    """A node with many channels, of which each message that only gives an order takes a new one."""

    CHANNELS, MOST, MOST_IF_SMALL = 64, 4, 3

    def __init__(self, dice, number, is_small):
        super().__init__(dice, number, is_small)
        self.next_channel = max(OPEN_CHANNELS) + 1

    def memory(self):
        return 8192

    def new_channel(self):
        """Returns the instruction that pushes a channel which nobody has used, or None."""
        self.next_channel += 1
        return self.channel(self.next_channel - 1) if self.next_channel <= self.CHANNELS else None


class Choosing(orderly.Orderly):
    """An orderly net with alternatives. A sender that a choice left out may not come before the end of that, so the
    chooser tells it before it sends again, unless the chooser forgets to."""

    NODE = ChoosingNode

    def __init__(self, dice, is_small=False):
        self.care, self.oddity = dice.choice([1, 1, 1, 1, 0.9, 0.5]), dice.choice([0, 0, 0.1, 0.4])
        # How often a choice may have links, and where it is often, how often it has them alone where it can.
        self.link_share = dice.choice([0.02, 0.02, 0.6, 0.9, 1])
        self.likes_links = self.link_share > 0.5 and dice.random() < 0.8
        # Who has left out the sender of a way, by the node and channel of that; and of each node the links that nobody
        # sends to.
        self.left_out, self.mute = {}, {}
        super().__init__(dice, is_small)

    def length(self):
        return self.dice.choice([1, 4]) if self.is_small else super().length()

    def join(self):
        """Nodes whose processes choose between links have more wires, and sources of which messages are chosen."""
        super().join()
        dice, wired = self.dice, self.drawn.wired_ends()
        free = [(node.number, link) for node in self.nodes for link in range(4) if (node.number, link) not in wired]
        dice.shuffle(free)
        for _ in range(dice.randint(0, 1 + len(self.nodes)) if self.link_share > 0.5 else 0):
            if len(free) < 2:
                break
            one = free.pop()
            # Seldom a wire from a node to itself.
            other = next((it for it in free if it[0] != one[0]), free[0]) if dice.random() < 0.8 else free[0]
            free.remove(other)
            self.drawn.wires.append((one, other))
            self.way(one, other)
            self.way(other, one)
        for end in free[: dice.choice([0, 1, 2]) if self.link_share > 0.5 else 0]:
            free, length = [it for it in free if it != end], self.length()
            messages = [dice.randbytes(length) for _ in range(dice.randint(0, 3))]
            self.drawn.sources.append((end, messages))
            own = dice.choice(self.nodes[end[0]].processes)
            self.asked[push_link(end[1], True), end[0]] = (own, length, len(messages))
        drained = [end for end, _ in self.drawn.sinks]
        for node in self.nodes:
            self.mute[node.number] = [link for number, link in (*free, *drained) if number == node.number]

    def way(self, sender, receiver):
        """A way over a wire, which seldom has several senders where processes choose between links."""
        if self.link_share > 0.5 and self.dice.random() < 0.6:
            draw.Mesh.way(self, sender, receiver)
        else:
            super().way(sender, receiver)

    def join_inside(self):
        """Many pairs of processes of a node have a channel of their own."""
        super().join_inside()
        for node in self.nodes:
            pairs = [(one, other) for one in node.processes for other in node.processes if one is not other]
            for one, other in pairs:
                if self.dice.random() < 0.5 and (channel := node.new_channel()):
                    self.ways.append((one, channel, other, channel))

    def statement(self, process):
        kinds = ["message"] * 3 + ["turn"] * 2 + ["word"] * 2 + ["simple"] * 3 + ["choice"] * 8
        kinds += ["server", "family", "peek"] * 2 + ["script", "loop", "branch", "par", "wake"]
        kinds += ["server", "peek", "source", "source", "other"] if self.link_share > 0.5 else []
        kinds += ["multiplexer"] if self.dice.random() < 0.1 else []
        getattr(self, f"add_{self.dice.choice(kinds)}")(process)

    # The order of senders.

    def send(self, sender, out, receiver, into, length, has_shared_buffer):
        self.release(sender, out)
        super().send(sender, out, receiver, into, length, has_shared_buffer)

    def release(self, sender, out):
        """Before a sender comes that a choice has left out, the chooser tells it that it may."""
        chooser = self.left_out.pop((sender.node.number, out), sender)
        if self.dice.random() < self.care:
            self.tell(chooser, sender)

    def leave_out(self, ways, process):
        """A process has chosen another way than these."""
        self.left_out |= {(sender.node.number, out): process for sender, out, _, _ in ways}

    def tell(self, one, other):
        """Messages of one byte that lead from one process to another, if there are ways for them."""
        if one is other:
            return
        if one.node is other.node:
            channel = one.node.new_channel()
            if channel:
                self.pass_byte(one, channel, other, channel)
            return
        ways = [it for it in self.ways if it[0].node is one.node and it[2].node is other.node
                and (one.node.number, it[1]) not in self.left_out]
        if ways:
            sender, out, receiver, into = self.dice.choice(ways)
            self.tell(one, sender)
            self.pass_byte(sender, out, receiver, into)
            self.tell(receiver, other)

    @staticmethod
    def pass_byte(one, out, other, into):
        one.add(f"    ldlp {MESSAGE}, {out}, ldc 1, out")
        other.add(f"    ldlp {MESSAGE}, {into}, ldc 1, in")

    def ways_to(self, process, most, has_open=False):
        """Returns some ways to a process, without two of one channel; open ones are those of who has the turn."""
        found = {it[3]: it for it in self.ways if it[2] is process is not it[0]}
        if has_open and self.holder is not process:
            found |= {into: (self.holder, out, process, into) for here, out, receivers, into in self.open_ways
                      if process in receivers and here is self.holder.node}
        over_links = [it for it in found.values() if is_over_link(it)]
        ways = [it for it in found.values() if not is_over_link(it)]
        if self.dice.random() < self.link_share:
            ways = over_links if over_links and self.likes_links and self.dice.random() < 0.7 else [*ways, *over_links]
        return self.dice.sample(ways, min(len(ways), most))

    def come(self, way, length):
        """The sender of a way comes with a message; the turn goes with it over an open way."""
        sender, out, receiver, _ = way
        self.release(sender, out)
        sender.add(self.output(out, length))
        if way not in self.ways:
            self.holder = receiver

    def silent(self, process):
        """Returns the instructions that push a channel on which nobody sends, or seldom any link."""
        if self.dice.random() < 0.05:
            return push_link(self.dice.randrange(4), True)
        mute = self.mute[process.node.number]
        if mute and self.dice.random() < self.link_share:
            return push_link(self.dice.choice(mute), True)
        return process.node.new_channel() or process.node.channel(0)

    # Alternatives.

    def add_choice(self, process):
        """A choice between some ways, of which one has a sender, or none if a guard is ready at once."""
        dice, length = self.dice, self.length()
        ways = self.ways_to(process, dice.choice([1, 2, 2, 2, 3]), True)
        has_sender = bool(ways) and dice.random() < 0.9
        if has_sender:
            self.come(ways[0], length)
        guards = [(it[3], int(place == 0 or dice.random() < 0.9)) for place, it in enumerate(ways)]
        guards += [(self.silent(process), 1)] if dice.random() < (0.3 if self.link_share > 0.5 else 0.1) else []
        if not has_sender or dice.random() < 0.15:
            guards.append((None, int(not has_sender or dice.random() < 0.05)))
        self.choose(process, guards, length)
        self.leave_out(ways[has_sender:], process)

    def add_peek(self, process):
        """Choices of one sender, of which only the last takes the message."""
        ways, length = self.ways_to(process, self.dice.choice([1, 2, 3]), True), self.length()
        if ways:
            self.come(ways[0], length)
            for takes in [False] * self.dice.randint(1, 2) + [True]:
                more = [(None, 1)] if self.dice.random() < 0.2 else []
                self.choose(process, [(it[3], 1) for it in ways] + more, length if takes else None)
            self.leave_out(ways[1:], process)

    def add_source(self, process):
        """Choices of messages of a source, beside others that nobody sends."""
        dice, left = self.dice, [it for it, (_, _, count) in self.asked.items() if count]
        if not left:
            return
        key = dice.choice(left)
        (channel, number), (own, length, count) = key, self.asked[key]
        times = dice.randint(1, count)
        for _ in range(times):
            beside = self.ways_to(own, dice.choice([0, 1, 1, 2]))
            silent = [self.silent(own)] if dice.random() < 0.3 else []
            guards = [(it, 1) for it in dict.fromkeys([channel, *(it[3] for it in beside), *silent])]
            if dice.random() < 0.2:
                self.choose(own, guards, None)
            self.choose(own, guards, length)
            self.leave_out(beside, own)
        self.asked[key] = (own, length, count - times)
        if count == times:
            self.mute[number].append(int(channel.split()[-1]) - 4)

    def add_other(self, process):
        """Another process of the node takes a message from a link that this one has in its choices; it may be told
        before that it may."""
        dice = self.dice
        ways = [it for it in self.ways if it[2].node is process.node is not it[0].node and is_over_link(it)]
        if ways:
            way, length = dice.choice(ways), self.length()
            takes = dice.choice([it for it in process.node.processes if it is not way[0]])
            if dice.random() < self.care:
                self.tell(way[2], takes)
            self.come(way, length)
            takes.add(self.input(way[3], length))
            if dice.random() < self.care:
                self.tell(takes, way[2])

    def add_family(self, process):
        """A process and one that it begins, of which one chooses between messages of the other; then both end."""
        dice, node = self.dice, process.node
        ways = [node.new_channel() for _ in range(2)]
        if not node.has_room() or None in ways:
            return
        child, begins, successor = self.start_child(process)
        one, other = dice.choice([(process, child), (child, process)])
        # The chosen offset goes to w(0), where the process that began the other one has the address for its end.
        process.add("    ajw -4")
        for _ in range(dice.randint(1, 3)):
            length = self.length()
            other.add(f"    ldlp {MESSAGE}, {dice.choice(ways)}, ldc {length}, out")
            one.add(self.simple(one))
            beside = self.ways_to(process, dice.choice([0, 0, 1])) if one is process else []
            self.choose(one, [(it, 1) for it in (*ways, *(it[3] for it in beside))], length)
            self.leave_out(beside, process)
        process.add("    ajw 4", f"    ldc #{process.workspace:08x}, endp", f"{successor}:")
        node.behind += [f"{begins}:", *child.lines, f"    ldc #{process.workspace:08x}, endp"]

    def add_server(self, process):
        """A server that takes requests of some clients, one after another, until one tells it to stop."""
        dice, node, length = self.dice, process.node, self.length()
        *ways, last = self.ways_to(process, dice.choice([2, 2, 3])) or [None]
        if not ways:
            return
        previous = None
        answers = [node.new_channel() if it[0].node is node and dice.random() < 0.3 else None for it in ways]
        for way, answer, count in zip([*ways, last], [*answers, None], [dice.randint(0, 3) for _ in ways] + [1]):
            if previous and count and dice.random() < self.care:
                self.tell(previous, way[0])
            for _ in range(count):
                self.come(way, length)
                way[0].lines += [self.input(answer, 1)] if answer else []
                previous = way[0]
        loop, behind = node.name(), node.name()
        process.add(f"{loop}:")
        counts = f"    ldl {LOCALS}, adc 1, stl {LOCALS}"
        more = [[counts, *([f"    ldlp {MESSAGE}, {it}, ldc 1, out"] if it else []), f"    j {loop}"] for it in answers]
        self.choose(process, [(it[3], 1) for it in [*ways, last]], length, [*more, [f"    j {behind}"]])
        process.add(f"{behind}:")
        self.leave_out(ways, process)

    def add_multiplexer(self, process):
        """Messages of two senders, between which nothing gives an order."""
        ways, length = self.ways_to(process, 2), self.length()
        if len({it[0] for it in ways}) == 2:
            for way in ways:
                self.come(way, length)
            for _ in ways:
                self.choose(process, [(it[3], 1) for it in ways], length)

    def choose(self, process, guards, length, more=None):
        """One alternative, in which each guard is a channel, or None, with a truth value. The branches take a message
        of this length, if there is one, and go on with more lines."""
        dice, node = self.dice, process.node
        names, base, behind = [node.name() for _ in guards], node.name(), node.name()
        enables = [f"    {it}, ldc {truth}, enbc" if it else f"    ldc {truth}, enbs" for it, truth in guards]
        disables = []
        for (channel, truth), name in zip(guards, names):
            offset = f"ldc {truth}, ldc {name}-{base}"
            disables.append(f"    {channel}, {offset}, disc" if channel else f"    {offset}, diss")
        if dice.random() < 0.5:
            dice.shuffle(disables)
        if dice.random() < 0.05:
            enables.append(dice.choice(enables))
        early = 0
        if (None, 1) in guards and dice.random() < 0.2:
            # Channels may be disabled before the process waits, which it need not.
            early = next(place for place, it in enumerate(disables) if it.endswith("diss"))
        lines = ["    alt", *enables, *disables[:early], "    altwt", *disables[early:], "    altend"]
        while dice.random() < self.oddity:
            lines = self.odd(process, lines)
        process.add(*lines, f"{base}:")
        for place, ((channel, _), name) in enumerate(zip(guards, names)):
            takes = [self.input(channel, length)] if channel and length else []
            process.add(f"{name}:", self.simple(process), *takes, *(more[place] if more else ()), f"    j {behind}")
        process.add(f"{behind}:")

    def odd(self, process, lines):
        """Returns the lines of an alternative with something that compilers seldom or never write."""
        dice, lines = self.dice, lines[:]
        at = dice.choice([it for it in range(1, len(lines)) if not lines[it].endswith(":")])
        kind = dice.choice(["insert", "insert", "move", "move", "double", "drop"])
        if kind == "insert":
            lines[at:at] = self.inserted(process)
            return lines
        line = lines[at] if kind == "double" else lines.pop(at)
        if kind != "drop":
            lines.insert(dice.randint(1, len(lines)), line)
        return lines

    def inserted(self, process):
        """Returns lines that may come between those of an alternative."""
        dice, node, k = self.dice, process.node, self.local()
        start, behind = node.name(), node.name()
        return dice.choice([
            [self.simple(process)], ["    j 0"], ["    altwt"], [f"    ldc {dice.choice([-1, 0, 1])}, stl 0"],
            [f"    stl {k}, stl {self.local()}, stl {self.local()}"], [f"    ldl {k}, ldlp 2, ldc 7"],
            ["    ldc 2, stl 14", f"{start}:", f"    ldlp 13, ldc {behind}-{start}, lend", f"{behind}:"],
            [self.input(it[3], 1) for it in self.ways_to(process, 1)], self.beginning(process),
        ])

    def beginning(self, process):
        """Returns the lines that begin another process, which sometimes sends to this one."""
        node = process.node
        if not node.has_room():
            return []
        child, begins, after = node.process(process.priority), node.name(), node.name()
        own = [it for it in self.ways_to(process, self.dice.choice([0, 1])) if it[0].node is node]
        node.behind += [f"{begins}:", self.simple(child), *(self.output(it[1], 1) for it in own), "    stopp"]
        return [f"    ldc {begins}-{after}, ldc #{child.workspace:08x}, startp", f"{after}:"]


def is_over_link(way):
    """Tells whether a way leads over a wire."""
    return way[3].startswith("mint")


def choosing(dice):
    """Draws an orderly net with alternatives; some are so small that each order of their steps can be tried."""
    return Choosing(dice, dice.random() < 0.3).whole()
