"""Draws nets whose programs are listings, as examples/make.py reads them: rows of nodes that pass on what a source
sends, and nodes of several processes that compute, share words, and talk over channels and links."""
import pathlib

from images import OPERATIONS, hold, image_of, read_listing, table
from instructions import LOCAL
from words import LOWEST

# What may come in place of a value of a wiring, and of a line that has none.
VALUES = r"""
0 1 2 +2 0x2 0b1_0 0o02 02 -0 -1 3 258 4294967295 4294967296 9223372036854775807 9223372036854775808 2.0 2e0 nan true
1979-05-27 "2" '2' [2] [0,1] [0x0,+1,] [0,1,2] [[0,1]] [-1,0] [0,4] [99,0] {} {end=1} [] ["00"] ["0"] [""] ["0g"]
['''00''',] ["00",1] ["2\u0061"] ["2\u0000"] ["٢٠"] ['2A'] "data" "ack" two 2,2
""".split()
TABLES = ("[node]", "[[wire]]", "[[source]]", "[[sink]]", "[[none]]", "[[ hold ]]", "[[node.kind]]", "", "# none")
KEYS = "version timeslice memory kind image end a b messages capacity from until node source".split()
BOUNDS = (0, 1, 2, 3, 31, 32, 63, 64, 0x7FFFFFFF, 0x80000000, 0x80000001, 0xFFFFFFFE, 0xFFFFFFFF)
CODE, ROW_WORKSPACE = LOWEST + 0x80, LOWEST + 0x100
# Of a long row: where the lengths stand, and where its messages go.
TABLE, BUFFER = LOWEST + 0x200, LOWEST + 0x800
# Of a process: this number of words of its workspace is below it, a buffer begins at this word, and locals are below
# that.
BELOW, LOOP, MESSAGE, LOCALS = 24, 13, 16, 12
LONGEST = 32


def data_line(content):
    """Returns the line of a listing that has these bytes."""
    return f"    {content.hex(' ')}  data"


def words_line(*numbers):
    return data_line(b"".join(it.to_bytes(4, "little") for it in numbers))


def push_link(link, is_input):
    """Returns the instructions that push the channel of a link."""
    return f"mint, ldnlp {link + (4 if is_input else 0)}"


class Drawn:
    """A net that is drawn: its nodes are pairs of a listing and a memory, kinds are of nodes by number."""

    def __init__(self, dice):
        self.dice, self.timeslice = dice, None
        self.nodes, self.kinds, self.wires, self.sources, self.sinks, self.holds = [], {}, [], [], [], []

    def wired_ends(self):
        """Returns each end that has a wire, those of sources and sinks included."""
        ends = [end for wire in self.wires for end in wire]
        scripts = [*self.sources, *self.sinks]
        ends += [it for it, _ in scripts]
        return ends + [(len(self.nodes) + number, 0) for number in range(len(scripts))]

    def hold(self):
        """Holds some packets for some rounds."""
        ends, dice = self.wired_ends(), self.dice
        for _ in range(dice.choice([0, 0, 1, 3, 6]) if ends else 0):
            first = dice.randint(0, 40)
            until = first + dice.choice([0, 1, dice.randint(0, 20), dice.randint(0, 200)])
            self.holds.append((dice.choice(ends), dice.choice(["data", "ack"]), first, until))

    def write(self, room):
        """Writes listings, images and the wiring, and returns the wiring's path."""
        tables, dice = [], self.dice
        for number, (lines, memory) in enumerate(self.nodes):
            listing, made = (pathlib.Path(room, f"{number}.{it}") for it in ("txt", "img"))
            listing.write_text("\n".join(lines) + "\n", encoding="utf-8")
            made.write_bytes(image_of(read_listing(listing)))
            kind = self.kinds.get(number)
            tables.append(table("node", memory=memory, image=str(made), **{"kind": kind} if kind else {}))
        for ends in self.wires:
            a, b = dice.sample(ends, 2)
            tables.append(table("wire", a=a, b=b))
        tables += [table("sink", end=end, capacity=capacity) for end, capacity in self.sinks]
        for end, messages in self.sources:
            digits = [dice.choice([str.upper, str.lower])(it.hex()) for it in messages]
            tables.append(table("source", end=end, messages=digits))
        timeslice = [f"timeslice = {self.timeslice}"] if self.timeslice else []
        path = pathlib.Path(room, "net.toml")
        text = "\n".join(["version = 2", *timeslice, *tables, *(hold(*it) for it in self.holds), ""])
        path.write_text(text, encoding="utf-8")
        return path


def row(dice):
    """Draws up to four nodes in a row of one length each, nearly always the same, which is nearly always that of the
    messages: each takes from link 2 and sends on link 1."""
    drawn = Drawn(dice)
    length = dice.choice([1, 2, 3, 4, 5, 16, dice.randint(1, 300)])
    lengths = [length if dice.random() < 0.9 else dice.randint(1, 20) for _ in range(dice.randint(1, 4))]
    for number, own in enumerate(lengths):
        takes, sends = push_link(2, True), push_link(1, False)
        body = [f"    ldlp 1, {takes}, ldc {own}, in", f"    ldlp 1, {sends}, ldc {own}, out", "    j loop"]
        lines = [f"at {CODE:08x}", "loop:", *body, f"process {ROW_WORKSPACE + 1:08x} loop"]
        drawn.kinds[number] = dice.choice([None, 1, 2])
        drawn.nodes.append((lines, dice.choice([2048, 2 << 20]) if drawn.kinds[number] == 2 else 2048))
    messages = []
    if dice.random() < 0.9:
        messages = [dice.randbytes(lengths[0] if dice.random() < 0.9 else dice.randint(1, 20))
                    for _ in range(dice.randint(0, 6))]
        drawn.sources.append(((0, 2), messages))
    total = length * len(messages)
    capacity = dice.choice([None, dice.randint(1, total + 8), dice.randint(1, 2 * length), total + 1, 65536])
    end_of_row(drawn, capacity)
    return drawn


def long_row(dice):
    """Draws one node that passes on 256 messages, most of them short, into a sink that sometimes is full before the
    end; it takes their lengths from a table."""
    drawn = Drawn(dice)
    lengths = [dice.randint(1, 16) for _ in range(250)] + [1, 4096, 4095] + [dice.randint(1, 2048) for _ in range(3)]
    dice.shuffle(lengths)
    lines = [f"at {CODE:08x}", "loop:", "    ldl 1, ldnl 0, stl 2, ldl 1, adc 4, stl 1"]
    lines += [f"    ldl 3, {push_link(2, True)}, ldl 2, in", f"    ldl 3, {push_link(1, False)}, ldl 2, out"]
    lines.append("    j loop")
    # Behind the last message it waits for one byte more, which never comes.
    lines += [f"at {ROW_WORKSPACE + 4:08x}", words_line(TABLE, 0, BUFFER), f"at {TABLE:08x}", words_line(*lengths, 1)]
    drawn.nodes.append(([*lines, f"process {ROW_WORKSPACE + 1:08x} loop"], 8192))
    drawn.sources.append(((0, 2), [dice.randbytes(it) for it in lengths]))
    end_of_row(drawn, dice.choice([sum(lengths), 65536, dice.randint(1, sum(lengths))]))
    return drawn


def end_of_row(drawn, capacity):
    """Joins the nodes of a row, with a sink at its end if there is one."""
    last = len(drawn.nodes) - 1
    drawn.wires = [((number, 1), (number + 1, 2)) for number in range(last)]
    if capacity is not None:
        drawn.sinks.append(((last, 1), capacity))


class Process:
    """A process of a node, whose lines grow."""

    def __init__(self, node, number, workspace, priority):
        self.node, self.number, self.workspace, self.priority = node, number, workspace, priority
        self.lines = []

    def add(self, *lines):
        self.lines += lines


class Node:
    """A node of several processes: code, then channels and shared words, then workspaces."""

    CHANNELS, MOST, MOST_IF_SMALL = 16, 5, 2

    def __init__(self, dice, number, is_small):
        self.dice, self.number, self.is_small = dice, number, is_small
        self.kind, self.size = dice.choice([None, 1, 2]), self.memory()
        self.names, self.behind, self.halts = 0, [], dice.random() < 0.1
        self.data = LOWEST + self.size // 2
        self.free = self.data + 4 * self.CHANNELS + 0x40
        most = self.MOST_IF_SMALL if is_small else self.MOST
        self.processes = [self.process(dice.choice([0, 1, 1, 1])) for _ in range(dice.randint(1, most))]

    def memory(self):
        return 2048 if self.is_small else 4096

    def process(self, priority):
        """Returns a new process, whose workspace is free."""
        workspace, self.free = self.free + 4 * BELOW, self.free + 0x100
        return Process(self, self.names, workspace, priority)

    def has_room(self):
        return self.free + 0x100 <= LOWEST + self.size

    def name(self):
        """Returns a new name."""
        self.names += 1
        return f"n{self.names}"

    def channel(self, number):
        """Returns the instruction that pushes an internal channel."""
        return f"ldc #{self.data + 4 * number:08x}"

    def shared(self):
        """Returns the address of a word that processes share."""
        return self.data + 4 * self.CHANNELS + 4 * self.dice.randrange(16)

    def operations(self):
        return [it for it in LOCAL if it != "dup" or self.kind == 2]

    def listing(self):
        """Returns the lines of its listing."""
        lines, dice = [f"at {CODE:08x}"], self.dice
        for number, process in enumerate(self.processes):
            lines += [f"p{number}:", *process.lines, *self.end(number)]
        lines += self.behind
        lines += ["routine:", "    ldl 1, ldl 2, sum, stl 3, ldl 3, ret", "other:", "    stl 12, ldl 1, adc 1, stl 1"]
        lines += ["    ldl 12, gcall", f"at {self.data:08x}", words_line(*[LOWEST] * self.CHANNELS)]
        lines.append(data_line(dice.randbytes(64)))
        told = [f"process {it.workspace + it.priority:08x} p{number}" for number, it in enumerate(self.processes)]
        return lines + told

    def end(self, number):
        """Returns how a process ends."""
        if self.halts:
            return ["    sethalterr, seterr"]
        ends = ["    stopp"] * 24 + [f"    j p{number}", f"    ldc 7, cj p{number}, stopp", "    sethalterr, seterr"]
        return [self.dice.choice(ends[:24] + ends[25:] if self.is_small else ends)]


class Mesh:
    """Nodes of several processes: statements are added to these one after another, messages to both sides at once, so
    that each has its partner if nothing else comes between."""

    NODE = Node

    def __init__(self, dice, is_small, is_wild):
        self.dice, self.is_small = dice, is_small
        count = dice.choice([1, 2, 2] if is_small else [1, 2, 2, 3, 4])
        self.nodes = [self.NODE(dice, number, is_small) for number in range(count)]
        self.drawn = Drawn(dice)
        self.drawn.timeslice = dice.choice([None, 1, 2, 3, 7, 20, 100])
        # Each way of a message has its sender and its receiver, by the instructions that push their channels.
        self.ways, self.sent, self.asked = [], {}, {}
        self.join()
        self.join_inside()
        for _ in range(dice.randint(1, 4) if is_small else dice.randint(3, 30)):
            self.statement(dice.choice(self.every_process()))
        for _ in range(dice.randint(1, 3) if is_wild else 0):
            process = dice.choice(self.every_process())
            line = self.wild(process) if dice.random() < 0.6 else self.touch(dice.choice(process.node.processes))
            process.lines.insert(dice.randint(0, len(process.lines)), f"    {line}")

    def every_process(self):
        return [it for node in self.nodes for it in node.processes]

    def join(self):
        """Draws wires, sources and sinks at the links."""
        dice = self.dice
        free = [(node.number, link) for node in self.nodes for link in range(4)]
        dice.shuffle(free)
        for _ in range(dice.randint(0, 2 if self.is_small else 2 * len(self.nodes))):
            if len(free) < 2:
                break
            one, other = free.pop(), free.pop()
            self.drawn.wires.append((one, other))
            self.way(one, other)
            self.way(other, one)
        for end in free[: dice.choice([0, 0, 1, 2])]:
            process, length = dice.choice(self.nodes[end[0]].processes), self.length()
            if dice.random() < 0.5:
                messages = [dice.randbytes(length) for _ in range(dice.randint(0, 3))]
                self.drawn.sources.append((end, messages))
                self.asked[push_link(end[1], True), end[0]] = (process, length, len(messages))
            else:
                self.drawn.sinks.append((end, dice.choice([1, length, 3 * length, 65536])))
                self.sent[push_link(end[1], False), end[0]] = (process, length, dice.randint(0, 3))

    def way(self, sender, receiver):
        """A way over a wire, with the processes that use it."""
        dice = self.dice
        one, other = (dice.choice(self.nodes[it[0]].processes) for it in (sender, receiver))
        self.ways.append((one, push_link(sender[1], False), other, push_link(receiver[1], True)))

    def join_inside(self):
        """Channels within the nodes that have two processes."""
        for node in self.nodes:
            for number in range(self.dice.randint(0, 4) if len(node.processes) > 1 else 0):
                one, other = self.dice.sample(node.processes, 2)
                self.ways.append((one, node.channel(number), other, node.channel(number)))

    def length(self):
        return self.dice.choice([1, 1, 2, 4, 4, self.dice.randint(1, LONGEST if not self.is_small else 4)])

    def value(self):
        """Returns a word that is drawn."""
        dice = self.dice
        return dice.choice([dice.choice(BOUNDS), dice.randrange(16), dice.randrange(1 << 32)])

    def local(self):
        return self.dice.randint(1, LOCALS)

    def statement(self, process):
        """Adds a statement to a process, or to both sides of a message."""
        kinds = ["message"] * 6 + ["choice"] * 3 + ["script"] * 2 + ["loop", "branch", "par", "wake"]
        kind = self.dice.choice(kinds + ["simple"] * (3 if self.is_small else 8))
        getattr(self, f"add_{kind}")(process)

    def add_simple(self, process):
        process.add(self.simple(process))

    def simple(self, process):
        """Returns the instructions of a statement without names."""
        dice, node = self.dice, process.node
        k, shared = self.local(), node.shared()
        if dice.random() < 0.4:
            return "    " + self.arithmetic(node)
        every = [
            f"ldl {k}, adc {dice.randint(-300, 300)}, stl {k}, j 0",
            self.raced(process),
            f"ldl {k}, eqc {dice.randint(-2, 2)}, stl {self.local()}",
            f"ldc #{shared:08x}, ldnl 0, adc 1, ldc #{node.shared():08x}, stnl 0",
            f"ldl {k}, ldc #{shared:08x}, stnl 0",
            f"ldc #{shared + dice.randrange(4):08x}, lb, stl {k}",
            f"ldl {k}, ldc #{shared + dice.randrange(4):08x}, sb",
            f"ldlp {MESSAGE}, ldc #{node.data + 0x40:08x}, ldc {dice.randint(0, 20)}, move",
            f"ldc #{node.data + 0x40:08x}, ldc #{node.data + 0x42:08x}, ldc {dice.randint(0, 20)}, move",
            f"testerr, stl {k}", f"testhalterr, stl {k}", "clrhalterr", "alt", f"ldpri, stl {k}", "stoperr",
            f"ldc 1, ldl {k}, ldl {k}, call routine, stl {k}", f"ldc other, gcall, stl {k}",
            f"ldc 2, ldpi, lb, stl {k}", "ldlp 0, gajw, stl 2", f"ajw -2, ldl {k}, stl 3, j 0, ajw 2",
            "ldlp 3, ldnlp 2, ldnl 0, stl 1",
        ]
        if dice.random() < 0.02:
            return "    sethalterr"
        return "    " + dice.choice(every if not self.is_small else every[:7])

    def raced(self, process):
        """Returns instructions that change a shared word, with a jump between load and store."""
        shared = f"ldc #{process.node.shared():08x}"
        return f"{shared}, ldnl 0, adc 1, j 0, {shared}, stnl 0"

    def arithmetic(self, node):
        """Returns three loads, operations on registers, and three stores."""
        dice = self.dice
        loads = [dice.choice([f"ldc #{self.value():08x}", f"ldl {self.local()}"]) for _ in range(3)]
        operations = dice.choices(node.operations(), k=dice.randint(1, 4))
        return ", ".join([*loads, *operations, *(f"stl {self.local()}" for _ in range(3))])

    def add_loop(self, process):
        """Statements that are done some times, and a jump at which a timeslice may end."""
        start, behind = process.node.name(), process.node.name()
        process.add(f"    ldc 0, stl {LOOP}, ldc {self.dice.randint(0, 4)}, stl {LOOP + 1}", f"{start}:")
        process.add(*(self.simple(process) for _ in range(self.dice.randint(0, 2))))
        process.add(f"    ldlp {LOOP}, ldc {behind}-{start}, lend", f"{behind}:")

    def add_branch(self, process):
        no, behind = process.node.name(), process.node.name()
        process.add(f"    ldl {self.local()}, cj {no}", self.simple(process), f"    j {behind}", f"{no}:")
        process.add(self.simple(process), f"{behind}:")

    @staticmethod
    def start_child(process):
        """Lets a process start another. Returns that, where it begins, and where this one goes on after both."""
        node = process.node
        child, begins, after, successor = node.process(process.priority), node.name(), node.name(), node.name()
        process.add(f"    ldc {successor}, stl 0, ldc 2, stl 1")
        process.add(f"    ldc {begins}-{after}, ldc #{child.workspace:08x}, startp", f"{after}:")
        return child, begins, successor

    def add_par(self, process):
        """Another process that joins this one at its end."""
        node = process.node
        if not node.has_room():
            return
        child, begins, successor = self.start_child(process)
        process.add(self.simple(process), f"    ldc #{process.workspace:08x}, endp", f"{successor}:")
        process.add(*(f"    {self.raced(process)}" for _ in range(self.dice.randint(0, 4))))
        lines = [self.simple(child) for _ in range(self.dice.randint(0, 2))]
        node.behind += [f"{begins}:", *lines, f"    ldc #{process.workspace:08x}, endp"]

    def add_wake(self, process):
        """Another process, of either priority, that this one begins by its descriptor."""
        node = process.node
        if not node.has_room():
            return
        other, begins = node.process(self.dice.choice([0, 1])), node.name()
        process.add(f"    ldc {begins}, ldc #{other.workspace:08x}, stnl -1",
                    f"    ldc #{other.workspace + other.priority:08x}, runp")
        lines = [self.simple(other) for _ in range(self.dice.randint(0, 3))]
        node.behind += [f"{begins}:", *lines, "    stopp"]

    def output(self, channel, length):
        """Returns the instructions that send a message."""
        ways = [f"ldlp {MESSAGE}, {channel}, ldc {length}, out"]
        ways += [f"{channel}, ldl {self.local()}, outbyte"] if length == 1 else []
        ways += [f"{channel}, ldl {self.local()}, outword"] if length == 4 else []
        return f"    {self.dice.choice(ways)}"

    def input(self, channel, length):
        return f"    ldlp {self.dice.randint(MESSAGE, MESSAGE + 3)}, {channel}, ldc {length}, in"

    def add_message(self, process):
        """A message on one of the ways."""
        if self.ways:
            sender, out, receiver, into = self.dice.choice(self.ways)
            length = self.length()
            sender.add(self.output(out, length))
            receiver.add(self.input(into, length if self.dice.random() < 0.97 else self.length()))
            if self.dice.random() < 0.05:
                waits = self.dice.choice([sender, receiver])
                self.dice.choice(waits.node.processes).add(f"    {self.touch(waits)}")

    def add_script(self, process):
        """What a source sends or a sink takes."""
        for (channel, _), (own, length, count) in self.asked.items():
            own.add(*[self.input(channel, length)] * count)
        for (channel, _), (own, length, count) in self.sent.items():
            own.add(*[self.output(channel, length)] * count)
        self.asked, self.sent = {}, {}

    def add_choice(self, process):
        """An alternative over some of the ways that lead to one process."""
        dice = self.dice
        ways = [it for it in self.ways if it[2] is process]
        ways = dice.sample(ways, min(len(ways), dice.randint(1, 3)))
        length, count = self.length(), 0
        for sender, out, _, _ in ways:
            number = dice.randint(0, 2 if not self.is_small else 1)
            count += number
            sender.add(*[self.output(out, length)] * number)
        for _ in range(min(count, 3)):
            self.alternative(process, [it[3] for it in ways], length)

    def alternative(self, process, channels, length):
        """One choice between channels, and sometimes a guard that is ready at once."""
        dice, node = self.dice, process.node
        if dice.random() < 0.1 and channels:
            # It asks for a message that it had enabled, without a choice.
            process.add(f"    alt, {channels[0]}, ldc 1, enbc", self.input(channels[0], length))
            return
        guards = [(it, int(dice.random() < 0.95)) for it in channels]
        guards += [(None, dice.choice([0, 1]))] if dice.random() < 0.2 else []
        names, behind = [node.name() for _ in guards], node.name()
        process.add("    alt")
        for channel, guard in guards:
            process.add(f"    {channel}, ldc {guard}, enbc" if channel else f"    ldc {guard}, enbs")
        process.add("    altwt")
        for (channel, guard), name in zip(guards, names):
            offset = f"ldc {guard}, ldc {name}-{names[0]}"
            process.add(f"    {channel}, {offset}, disc" if channel else f"    {offset}, diss")
        process.add("    altend")
        for (channel, _), name in zip(guards, names):
            process.add(f"{name}:", *([self.input(channel, length)] if channel else []), f"    j {behind}")
        process.add(f"{behind}:")

    def wild(self, process):
        """Returns instructions that often break a rule."""
        dice, node = self.dice, process.node
        other = dice.choice(node.processes)
        places = [self.value(), node.shared() + dice.randrange(4), LOWEST + dice.randrange(80), process.workspace - 4]
        places += [LOWEST + node.size - dice.randrange(8), LOWEST + 4 * dice.randrange(8)]
        beside = (other.priority, 4 * MESSAGE, 4 * MESSAGE + 1, -4 * dice.randint(-1, 3))
        places += [node.data + 4 * dice.randrange(4), *(other.workspace + it for it in beside)]
        place = f"{dice.choice(places):08x}"
        operations = [it for it in OPERATIONS if it != "dup"]
        every = [
            f"ldc #{place}, ldnl 0", f"ldc 1, ldc #{place}, stnl 0", f"ldc #{place}, lb", f"ldc 1, ldc #{place}, sb",
            f"ldc #{place}, gajw", f"ldc 0, ldc #{place}, startp", f"ldc #{place}, runp", f"ldc #{place}, endp",
            f"ldlp 1, ldc #{place}, ldc {dice.randint(0, 5)}, in",
            f"ldlp 1, ldc #{place}, ldc {dice.randint(0, 5)}, out",
            f"ldc #{place}, ldlp 1, ldc {dice.randint(0, 300)}, move", f"ldc #{place}, ldc 1, outword",
            f"ldc #{place}, ldc 1, enbc", f"ldc #{place}, ldc 1, ldc 0, disc", "altwt", "altend", "ret", "lend",
            f"ldc #{place}, gcall", f"ajw {dice.randint(-99, 99)}", f"j {dice.randint(-30, 30)}", "ajw 300",
            f"ldc #{other.workspace:08x}, gajw, j 0, j 0, j 0", "ldlp -3, ldc 1, call routine, j 0",
            f"ldc #{place}, ldlp 1, ldc 4, move", "ldc 3, stl 0",
        ]
        if dice.random() < 0.5:
            return dice.choice(every)
        loads = [f"ldc #{dice.choice([place, f'{self.value():08x}'])}" for _ in range(3)]
        return ", ".join([*loads, dice.choice(operations)])

    def touch(self, process):
        """Returns instructions that touch what a process has that may be waiting: saved words, or its buffer."""
        dice = self.dice
        place = process.workspace + dice.choice([-12, -8, -4, 0, *[4 * MESSAGE] * 3, 4 * (MESSAGE + 3)])
        word, byte = f"#{place:08x}", f"#{place + dice.randrange(4):08x}"
        return dice.choice([
            f"ldc {word}, ldnl 0, stl 1", f"ldc {byte}, lb, stl 1", f"ldl 1, ldc {word}, stnl 0",
            f"ldl 1, ldc {byte}, sb",
            f"ldlp 1, ldc {byte}, ldc 3, move", f"ldc {byte}, ldlp 1, ldc 3, move", f"ldc {word}, ldl 1, outword",
            f"ldc {word}, gcall", f"ldc {word}, gajw, j 0, stopp",
        ])

    def whole(self):
        """Returns the net."""
        self.add_script(None)
        for node in self.nodes:
            self.drawn.nodes.append((node.listing(), node.size))
            self.drawn.kinds[node.number] = node.kind
        return self.drawn


def mesh(dice):
    """Draws nodes of several processes each."""
    return Mesh(dice, False, dice.random() < 0.5).whole()


def small(dice):
    """Draws a net of which every order of steps can be tried."""
    return Mesh(dice, True, dice.random() < 0.2).whole()


def broken_wiring(text, dice):
    """Returns the text of a wiring with some lines changed, spelled in other ways, doubled or left out."""
    lines = text.splitlines()
    for _ in range(dice.randint(1, 3)):
        at = dice.randrange(len(lines))
        key, equals, value = lines[at].partition(" = ")
        kind = dice.randrange(12)
        if kind == 0 and len(lines) > 1:
            del lines[at]
        elif kind == 1:
            lines.insert(at, dice.choice(lines))
        elif kind == 2:
            lines.insert(at, f"{dice.choice(KEYS)} = {dice.choice(VALUES)}")
        elif not equals:
            lines[at] = dice.choice(TABLES)
        elif kind < 5:
            spelled = [f"'{key}'", f'"{key}"', f'"\\u{ord(key[0]):04x}{key[1:]}"']
            spelled += [f" {key}\t", key.title(), f"{key}.of"]
            lines[at] = f"{dice.choice(spelled)}={value} # changed"
        else:
            lines[at] = f"{key} = {dice.choice(VALUES)}"
    return dice.choice(["\n", "\n", "\r\n"]).join([*lines, ""])


def broken_bytes(content, dice):
    """Returns bytes of which some are others, more or fewer."""
    content, at = bytearray(content), dice.randrange(len(content) + 1)
    kind = dice.randrange(4)
    if kind == 0:
        return bytes(content[:at])
    if kind == 1:
        return bytes(content + dice.randbytes(dice.randint(1, 9)))
    for _ in range(dice.randint(1, 2)):
        place = dice.choice([dice.randrange(len(content)), dice.randrange(min(40, len(content)))])
        content[place] = dice.choice([*b"\0\1\x10\n\r 09\xff", content[place] ^ 1, dice.randrange(256)])
    return bytes(content)
