"""The process machine (docs/MACHINE.md, section 17): each process that is ready has a step, and no queue, timeslice or
interrupt decides whose turn it is. A step is told by what it has seen and what it changes."""
from channels import is_link
from choosing import Choosing, lets_go_on, link_lets_go_on
from memory import Break, Memory, Offer, require
from net import Sink, Source
from places import (DECREMENTS, FIRST_VALUES, LAST, READY, REFUSALS, UNKNOWN, Act, Agent, AgentKind, Awaited, Change,
                    Context, Kind, Loan, Place, Standing, Status, Use, Word, cells_of)
from processes import LOW
from processor import Processor
from words import IPTR, LOWEST, MODULUS, NEXT, NOT_PROCESS, STATE, workspace_of


class Step:
    """A step of an agent: what it has seen and what it changes, each in order, and why it stops, if it does."""

    def __init__(self, machine, agent):
        self.machine, self.agent = machine, agent
        self.seen, self.changes, self.after = [], [], {}
        self.stop, self.iptr, self.text = None, None, ""
        # The bytes that pass over a wire.
        self.message = None

    def place(self, kind, key=None):
        """Returns a place of the agent's node."""
        return Place(kind, self.agent.node, key)

    def look(self, place):
        """Returns what stands there after the changes so far; what stood there before them was seen."""
        self.seen.append((place, self.machine.value(place)))
        return self.left(place)

    def change(self, place, act, operand=None):
        """Makes a change, without a look."""
        change = Change(act, operand)
        self.changes.append((place, change))
        self.after[place] = change.of(self.left(place))

    def put(self, place, value):
        self.change(place, Act.PUT, value)

    def left(self, place):
        """Returns what stands there after the changes so far."""
        return self.after[place] if place in self.after else self.machine.value(place)


class Looks(Memory):
    """The memory of a node for one step: each touch is a look, and bytes may be unknown."""

    def __init__(self, step, node):
        self.step, self.node, self.size = step, node, step.machine.sizes[node]
        # Whether an unknown byte was read, and for each word to be written whether it is unknown.
        self.has_read_unknown, self.unknown_writes = False, []

    def word_place(self, at):
        return Place(Kind.WORD, self.node, (at - LOWEST) // 4)

    def words(self, start, length):
        """Yields the place of each word that has one of these bytes."""
        return map(self.word_place, range(start - start % 4, start + length, 4) if length else ())

    def touch(self, start, length, writes, own=None, use=Use.FREE):
        """Looks at the words of some bytes, which have to have this use."""
        if length == 0:
            return
        self.bound(start, length)
        for place in self.words(start, length):
            found = self.step.look(place).use
            if found is not use:
                raise Break(REFUSALS.get(found, "WordInUse") if use is Use.FREE else "WordInUse")
            if writes:
                self.not_sent(place)

    def use_word(self, address, use):
        """Looks at a word that has to have a use, and of which no output on a link has a byte."""
        self.touch(address, 4, False, use=use)
        self.not_sent(self.word_place(address))

    def not_sent(self, place):
        """Checks that no output on a link has a byte of a word."""
        require(self.step.look(place._replace(kind=Kind.SENDING)) == 0, "InTransit")

    def cells(self, start, length):
        """Returns bytes after their touch, of which each may be unknown."""
        found = [it for place in self.words(start, length) for it in self.step.machine.value(place).cells]
        return found[start % 4 : start % 4 + length]

    def get(self, address, length):
        found = self.cells(address, length)
        self.has_read_unknown = self.has_read_unknown or None in found
        return bytes(it or 0 for it in found)

    def set(self, address, content):
        is_unknown = bool(self.unknown_writes) and self.unknown_writes.pop(0)
        self.set_cells(address, [None] * len(content) if is_unknown else content)

    def set_cells(self, start, content, use=Use.FREE):
        """Puts bytes somewhere, and gives their words a use."""
        for place in self.words(start, len(content)):
            first = LOWEST + 4 * place.key - start
            cells = [content[it] if 0 <= it < len(content) else old
                     for it, old in enumerate(self.step.left(place).cells, first)]
            self.step.put(place, Word(tuple(cells), use))

    def copy_bytes(self, target, source, length):
        self.set_cells(target, self.cells(source, length))

    def save(self, workspace, keeps_state):
        """The words below a workspace are saved; the state may be kept."""
        self.may_leave(workspace)
        for below in (STATE, NEXT, IPTR):
            place = self.word_place(workspace - below)
            is_kept = keeps_state and below == STATE
            self.step.put(place, Word(self.step.left(place).cells if is_kept else UNKNOWN, Use.SAVED))

    def save_upper(self, workspace):
        """The upper two words below a workspace are saved."""
        for below in (NEXT, IPTR):
            self.touch_word(workspace - below, True)
            self.step.put(self.word_place(workspace - below), Word(UNKNOWN, Use.SAVED))

    def restore(self, workspace, lowest=STATE):
        """The words below a workspace, from the lowest one on, are saved no more."""
        self.touch(workspace - lowest, lowest, False, use=Use.SAVED)
        for place in self.words(workspace - lowest, lowest):
            self.step.put(place, Word(self.step.left(place).cells))

    def count_output(self, buffer, length, more):
        """One more output on a link, or one less, has these bytes."""
        for place in self.words(buffer, length):
            self.step.change(place._replace(kind=Kind.SENDING), Act.ADD, more)


# Which of A, B, C an instruction needs to know, and where each of A, B, C comes from that it leaves: from one of these,
# from memory (X), or it is made of what is known (M). A `cj` that does not jump leaves BCC.
LEAVES = {
    ("", "ABC"): "j ajw ret seterr clrhalterr sethalterr stoperr stopp alt enbs altwt altend", ("", "MBC"): "call",
    ("", "XAB"): "ldl", ("", "ACC"): "enbc", ("", "MCC"): "disc diss",
    ("", "MAB"): "ldlp ldc mint ldpri testerr testhalterr testpranal", ("", "BCC"): "stl", ("", "BAC"): "rev",
    ("", "AAB"): "dup", ("A", "ABC"): "cj endp", ("A", "XBC"): "ldnl lb", ("A", "CCC"): "stnl sb",
    ("A", "MBC"): "ldnlp adc eqc gcall ldpi not bcnt gajw", ("A", "AMB"): "xdble", ("A", "MMB"): "wcnt",
    ("A", "BCC"): "runp", ("AB", "BCC"): "csub0 ccnt1 cword", ("AB", "ACC"): "csngl", ("AB", "MMM"): "norm",
    ("AB", "MCC"): "bsub diff add prod gt wsub sub rem div xor xword shr shl and or sum mul",
    ("AB", "CCC"): "lend startp", ("ABC", "MCC"): "ladd lsub", ("ABC", "CCC"): "move in out",
    ("ABC", "MMC"): "ldiv lmul lshr lshl lsum ldiff", ("B", "CCC"): "outbyte outword",
}
USES = {name: uses for uses, names in LEAVES.items() for name in names.split()}
# Where the words come from that an instruction writes, and the instructions that go by what they read.
WRITES = {"stl": "A", "stnl": "B", "sb": "B", "call": "MABC"}
BY_MEMORY = ("ret", "lend", "runp")
ON_FLAGS = ("testerr", "testhalterr", "sethalterr", "clrhalterr")


class Turn(Choosing, Processor):
    """One step of a process: it goes on after a rest or a choice, listens at a link, or does an instruction."""

    def __init__(self, step, context):
        self.step, self.context, self.kind = step, context, step.machine.kinds[step.agent.node]
        self.memory = Looks(step, step.agent.node)
        self.a, self.b, self.c = (it or 0 for it in context.stack)
        self.wptr, self.iptr, self.current = context.wptr, context.iptr, context.priority
        self.children, self.choice = context.children, context.choice
        # As if an error halted the node: it tells that the instruction sets Error.
        self.error, self.halt_on_error, self.is_halted = False, True, False
        self.status, self.channel = Status.RUNS, None

    def leave_with(self, stack):
        """The process stands as it does after this step."""
        context = Context(self.current, self.wptr, self.iptr, stack, self.children, choice=self.choice)
        standing = Standing(self.status, None if self.status is Status.ENDED else context, self.channel)
        self.step.put(self.step.place(Kind.STANDING, self.step.agent.key), standing)

    def go_on(self):
        """The process rested and runs from now on, and its output on a link is over."""
        self.memory.restore(self.wptr)
        loan = self.context.loan
        if loan:
            self.memory.touch(loan.buffer, loan.length, False)
            self.memory.count_output(loan.buffer, loan.length, -1)
            unfinished = self.step.place(Kind.UNFINISHED, loan.link)
            require(self.step.look(unfinished), "HasNoStep")
            self.step.put(unfinished, False)
        self.leave_with(self.context.stack)

    def do_next(self):
        """Does the next instruction."""
        self.step.iptr = self.iptr
        found = self.fetch(self.iptr)
        require(not self.memory.has_read_unknown, "SawTheScheduler")
        name, operand, self.iptr = found
        self.step.text = found.text()
        needs, left = USES[name]
        unknown = {it for it, value in zip("ABC", self.context.stack) if value is None}
        require(not unknown.intersection(needs), "SawTheScheduler")
        self.memory.unknown_writes = [it in unknown for it in WRITES.get(name, "")]
        jumps = self.with_flags(name, operand)
        if self.memory.has_read_unknown:
            require(name not in BY_MEMORY, "SawTheScheduler")
            unknown.add("X")
        left = "BCC" if name == "cj" and self.context.stack[0] != 0 else left
        self.finish(jumps, tuple(None if it in unknown else value for it, value in zip(left, (self.a, self.b, self.c))))

    def with_flags(self, name, operand):
        """Does an instruction; one that looks at the flags is done with them."""
        if name in ON_FLAGS:
            places = [self.step.place(it) for it in (Kind.ERROR, Kind.HALTING)]
            before = self.error, self.halt_on_error = [self.step.look(it) for it in places]
            self.execute(name, operand)
            for place, old, new in zip(places, before, (self.error, self.halt_on_error)):
                if old != new:
                    self.step.put(place, new)
            return False
        jumps = self.execute(name, operand)
        if self.is_halted:
            require(not self.step.look(self.step.place(Kind.HALTING)), "Halts")
            self.step.change(self.step.place(Kind.ERROR), Act.RAISE)
        return jumps

    def finish(self, jumps, stack):
        """The end of an instruction. A low process may give way where it jumps."""
        if jumps and self.current == LOW:
            self.status = Status.RESTS
            self.memory.save(self.wptr, True)
        if self.wptr != self.context.wptr or self.status is Status.ENDED:
            require(self.context.choice is None, "WordInUse")
            self.step.change(self.step.place(Kind.LIFE, self.context.wptr), Act.ADD, -1)
            if self.status is not Status.ENDED:
                self.step.change(self.step.place(Kind.LIFE, self.wptr), Act.ADD, 1)
        self.leave_with(stack if self.status in (Status.RUNS, Status.LISTENS) else (None, None, None))

    def may_end_timeslice(self):
        """Whether the process gives way is told at the end."""

    # Operations of the scheduler.

    def begin(self, workspace, iptr, priority):
        """Another process begins."""
        require(workspace % 4 == 0, "Unaligned")
        require(self.step.look(self.step.place(Kind.LIFE, workspace)) == 0, "AlreadyLive")
        self.memory.save(workspace, True)
        child = self.step.place(Kind.STANDING, (*self.step.agent.key, self.children))
        require(self.step.look(child).status is Status.ABSENT, "HasNoStep")
        self.step.put(child, Standing(Status.RESTS, Context(priority, workspace, iptr % MODULUS)))
        self.step.change(self.step.place(Kind.LIFE, workspace), Act.ADD, 1)
        self.children += 1

    def do_startp(self):
        self.begin(self.a, self.iptr + self.b, self.current)
        self.pop(2)

    def do_runp(self):
        self.begin(workspace_of(self.a), self.read(workspace_of(self.a) - IPTR), self.a & 1)
        self.pop()

    def do_endp(self):
        self.memory.touch_word(self.a, False)
        count = (self.a + 4) % MODULUS
        self.memory.bound(count, 4)
        self.memory.not_sent(self.memory.word_place(count))
        self.step.change(self.memory.word_place(count), DECREMENTS[self.current])
        self.leave()

    def leave(self):
        """The process ends."""
        self.status = Status.ENDED

    def do_stoperr(self):
        if self.step.look(self.step.place(Kind.ERROR)):
            self.do_stopp()

    # Messages.

    def message(self, is_input, length, channel, buffer, word=None):
        if word is not None:
            self.memory.touch_word(self.wptr, True)
            self.memory.set_cells(self.wptr, UNKNOWN if self.context.stack[0] is None else cells_of(word))
        require(not overlap(buffer, length, self.wptr - STATE, STATE), "SavedWord")
        take_half = self.on_link if is_link(channel) else self.on_internal_channel
        take_half(is_input, length, channel, buffer)
        self.status = Status.WAITS

    def take_half(self, half, fault, buffer, length):
        """Takes half of a channel or a link, which is empty."""
        require(self.step.look(half) is None, fault)
        self.step.put(half, Offer(self.step.agent.key, buffer, length))

    def on_internal_channel(self, is_input, length, channel, buffer):
        require(channel % 4 == 0, "Unaligned")
        self.memory.bound(channel, 4)
        require(not overlap(buffer, length, channel, 4), "BufferOverChannel")
        half = self.step.place(Kind.HALF, (channel, is_input))
        self.take_half(half, "ChannelMisuse", buffer, length)
        self.memory.not_sent(self.memory.word_place(channel))
        self.memory.save(self.wptr, False)
        self.step.change(self.memory.word_place(channel), Act.ENGAGE)
        self.memory.touch(buffer, length, is_input)

    def on_link(self, is_input, length, channel, buffer):
        link = self.link_of(is_input, channel)
        require(length != 0, "ZeroLength")
        self.take_half(self.step.place(Kind.LINK_HALF, (link, is_input)), "LinkBusy", buffer, length)
        require(is_input or not self.step.look(self.step.place(Kind.UNFINISHED, link)), "LinkBusy")
        self.memory.save(self.wptr, True)
        self.memory.touch(buffer, length, is_input)
        if is_input:
            self.memory.set_cells(buffer, [None] * length, Use.RECEIVING)
        else:
            self.memory.count_output(buffer, length, 1)


def overlap(start, length, other, other_length):
    """Tells whether two ranges share a byte."""
    return length > 0 and other_length > 0 and start < other + other_length and other < start + length


def process_step(step):
    """A step of a process."""
    standing = step.look(step.place(Kind.STANDING, step.agent.key))
    turn = Turn(step, standing.context)
    if standing.status is Status.RUNS:
        turn.do_next()
        return
    step.text = "listens" if standing.status is Status.LISTENS else "goes on"
    if standing.status is Status.RESTS:
        turn.go_on()
    elif standing.status is Status.CHOSEN:
        turn.go_on_chosen()
    else:
        turn.listen(standing.channel)


def wake(step, node, process, loan=None):
    """A process that waited rests: its message is copied."""
    place = Place(Kind.STANDING, node, process)
    standing = step.look(place)
    require(standing.status is Status.WAITS, "HasNoStep")
    step.put(place, Standing(Status.RESTS, standing.context._replace(loan=loan)))


def channel_step(step):
    """Two processes meet on an internal channel: the message is copied. A process that waits for this channel and for
    others goes on, and takes the message later."""
    channel, memory = step.agent.key, Looks(step, step.agent.node)
    halves = [step.place(Kind.HALF, (channel, is_input)) for is_input in (False, True)]
    sender, receiver = map(step.look, halves)
    if isinstance(receiver, Awaited):
        step.text = "chooses"
        lets_go_on(step, receiver.process)
        return
    step.text = "copies"
    require(sender.length == receiver.length, "LengthMismatch")
    memory.touch(channel, 4, False, use=Use.CHANNEL)
    step.put(memory.word_place(channel), Word(cells_of(NOT_PROCESS)))
    memory.touch(sender.buffer, sender.length, False)
    memory.touch(receiver.buffer, receiver.length, True)
    memory.copy_bytes(receiver.buffer, sender.buffer, sender.length)
    for half, message in zip(halves, (sender, receiver)):
        wake(step, step.agent.node, message.process)
        step.put(half, None)


def wire_step(step):
    """A message is copied over a wire. A process that waits for this link and for others goes on, and takes the message
    later."""
    # Of a sink there is no input half.
    *asked, output = map(step.look, reversed(step.machine.gates(step.agent)))
    if asked and isinstance(asked[0], Awaited):
        step.text = "chooses"
        link_lets_go_on(step, asked[0].process)
        return
    step.text = "copies"
    step.message = content = taken(step, output)
    if asked:
        deliver(step, asked[0], content)
    else:
        place = step.place(Kind.KEPT)
        kept = step.look(place)
        room = step.machine.net.parts[step.agent.node].capacity - sum(map(len, kept))
        require(len(content) <= room, "FullSink")
        step.put(place, (*kept, content))


def taken(step, output):
    """Takes the message that is offered at the far end of a wire."""
    far = step.machine.gates(step.agent)[0]
    if far.kind is Kind.MESSAGES:
        step.put(far, output[1:])
        return tuple(output[0])
    memory, (link, _) = Looks(step, far.node), far.key
    memory.touch(output.buffer, output.length, False)
    step.put(far, None)
    step.put(far._replace(kind=Kind.UNFINISHED, key=link), True)
    wake(step, far.node, output.process, Loan(link, output.buffer, output.length))
    return tuple(memory.cells(output.buffer, output.length))


def deliver(step, asked, content):
    """Gives a message to the process that asked for it."""
    memory = Looks(step, step.agent.node)
    require(asked.length == len(content), "LengthMismatch")
    memory.touch(asked.buffer, asked.length, False, use=Use.RECEIVING)
    memory.set_cells(asked.buffer, content)
    step.put(step.place(Kind.LINK_HALF, (step.agent.key, True)), None)
    wake(step, step.agent.node, asked.process)


def successor_step(step):
    """What follows a PAR goes on, since the last of its processes has ended."""
    workspace, memory = step.agent.key, Looks(step, step.agent.node)
    step.text = "goes on"
    count = memory.word_place(workspace + 4)
    use = step.look(count).use
    require(use in LAST, "WordInUse")
    memory.touch_word(workspace, False)
    iptr = memory.word(workspace)
    require(not memory.has_read_unknown, "SawTheScheduler")
    memory.not_sent(count)
    step.put(count, Word())
    life, successions = (step.place(it, workspace) for it in (Kind.LIFE, Kind.SUCCESSIONS))
    require(step.look(life) == 0, "AlreadyLive")
    step.change(life, Act.ADD, 1)
    number = step.look(successions)
    step.put(successions, number + 1)
    process = step.place(Kind.STANDING, ("after", workspace, number))
    require(step.look(process).status is Status.ABSENT, "HasNoStep")
    step.put(process, Standing(Status.RUNS, Context(LAST.index(use), workspace, iptr)))


STEPS = {AgentKind.PROCESS: process_step, AgentKind.CHANNEL: channel_step, AgentKind.WIRE: wire_step,
         AgentKind.SUCCESSOR: successor_step}


class ProcessMachine:
    """The process machine of a net: what stands at each place, and the agents that have a step."""

    def __init__(self, net):
        self.net, self.values, self.ready = net, {}, {}
        self.sizes, self.kinds = [], []
        self.flagged, self.priorities = set(), {}
        for number, part in enumerate(net.parts):
            if isinstance(part, Source):
                self.set(Place(Kind.MESSAGES, number), tuple(part.messages))
            elif not isinstance(part, Sink):
                self.load(number, part)

    def load(self, number, part):
        """Loads a node: memory, and its processes."""
        self.sizes.append(len(part.memory.bytes))
        self.kinds.append(part.kind)
        for at in range(0, len(part.memory.bytes), 4):
            cells = tuple(part.memory.bytes[at : at + 4])
            if any(cells):
                self.values[Place(Kind.WORD, number, at // 4)] = Word(cells)
        for place, (descriptor, iptr) in enumerate(self.net.plan.nodes[number].processes):
            workspace = workspace_of(descriptor)
            context = Context(descriptor & 1, workspace, iptr)
            self.set(Place(Kind.STANDING, number, (place,)), Standing(Status.RESTS, context))
            self.set(Place(Kind.LIFE, number, workspace), 1)
            for below in (STATE, NEXT, IPTR):
                word = Place(Kind.WORD, number, (workspace - below - LOWEST) // 4)
                self.set(word, Word(self.value(word).cells if below == STATE else UNKNOWN, Use.SAVED))

    def value(self, place):
        """Returns what stands at a place."""
        found = self.values.get(place, self)
        return FIRST_VALUES[place.kind] if found is self else found

    def set(self, place, value):
        """Something stands at a place from now on."""
        self.values[place] = value
        if place.kind is Kind.STANDING and value.context:
            self.priorities.setdefault(place.node, set()).add(value.context.priority)
        elif place.kind in (Kind.ERROR, Kind.HALTING):
            self.flagged.add(place.node)
        agent = self.agent_at(place)
        if agent is not None:
            if all(map(self.is_open, self.gates(agent))):
                self.ready.setdefault(agent)
            else:
                self.ready.pop(agent, None)

    def agent_at(self, place):
        """Returns the agent of which a place is a gate, or None."""
        kind, node, key = place
        if kind is Kind.STANDING:
            return Agent(AgentKind.PROCESS, node, key)
        if kind is Kind.HALF:
            return Agent(AgentKind.CHANNEL, node, key[0])
        if kind is Kind.WORD:
            return Agent(AgentKind.SUCCESSOR, node, LOWEST + 4 * key - 4)
        if kind is Kind.LINK_HALF and key[1]:
            return Agent(AgentKind.WIRE, node, key[0]) if (node, key[0]) in self.net.far else None
        if kind in (Kind.LINK_HALF, Kind.MESSAGES):
            far = self.net.far.get((node, key[0] if key else 0))
            return Agent(AgentKind.WIRE, *far) if far and not isinstance(self.net.parts[far[0]], Source) else None
        return None

    def gates(self, agent):
        """Returns the places that have to be open for the agent to have a step."""
        kind, node, key = agent
        if kind is AgentKind.PROCESS:
            return [Place(Kind.STANDING, node, key)]
        if kind is AgentKind.CHANNEL:
            return [Place(Kind.HALF, node, (key, is_input)) for is_input in (False, True)]
        if kind is AgentKind.SUCCESSOR:
            return [Place(Kind.WORD, node, (key + 4 - LOWEST) // 4)]
        output, is_sink = self.output_to(node, key), isinstance(self.net.parts[node], Sink)
        return [output] if is_sink else [output, Place(Kind.LINK_HALF, node, (key, True))]

    def output_to(self, node, link):
        """Returns the place of what is offered at the far end of a link, or None if there is no wire."""
        if (node, link) not in self.net.far:
            return None
        number, far = self.net.far[node, link]
        is_source = isinstance(self.net.parts[number], Source)
        return Place(Kind.MESSAGES, number) if is_source else Place(Kind.LINK_HALF, number, (far, False))

    def is_open(self, place):
        """Tells whether a gate is open."""
        return is_open(place.kind, self.value(place))

    def step_of(self, agent):
        """Returns the step of an agent that has one."""
        step = Step(self, agent)
        try:
            STEPS[agent.kind](step)
        except Break as fault:
            step.stop = str(fault)
        return step

    def do(self, step):
        """Makes the changes of a step."""
        for place, value in step.after.items():
            self.set(place, value)

    def refusal(self):
        """Returns why a run that is over is not certified, and the node, or None."""
        for number in range(len(self.sizes)):
            if number in self.flagged and len(self.priorities[number]) > 1:
                return "FlagsChanged", number
        return None


def is_open(kind, value):
    """Tells whether a gate of some kind is open with a value."""
    if kind is Kind.STANDING:
        return value.status in READY
    if kind is Kind.WORD:
        return value.use in (*LAST, Use.SPOILT)
    if kind is Kind.MESSAGES:
        return bool(value)
    return isinstance(value, (Offer, Awaited))
