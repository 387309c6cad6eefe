"""A processor: it fetches the instructions of its processes and does them (docs/MACHINE.md, sections 3 to 8)."""
import copy
from typing import NamedTuple

from channels import Channels
from images import FUNCTIONS, NEGATIVE_PREFIX, OPERATE, OPERATION_NAMES, OPERATIONS, PREFIX
from instructions import LOCAL, SIMPLE, Instructions
from memory import Break, Memory, require
from processes import LOW, Processes
from words import FIRST, LOWEST, MODULUS, signed

MOST_BYTES = 16


def is_operation(code, kind):
    """Tells whether nodes of a kind have an operation."""
    return code in OPERATION_NAMES and (kind == 2 or OPERATION_NAMES[code] != "dup")


class Fetched(NamedTuple):
    """An instruction, and the address after it."""

    name: str
    operand: int
    after: int

    def text(self):
        return self.name if self.name in OPERATIONS else f"{self.name} {signed(self.operand)}"


class Processor(Processes, Channels, Instructions):
    """A processor; `current` is the priority of the process that runs, or None."""

    def __init__(self, size, kind=1, timeslice=1024):
        self.memory, self.kind, self.timeslice = Memory(size), kind, timeslice
        self.error = self.halt_on_error = self.is_halted = False
        self.interrupted, self.queues, self.waiting = None, ([], []), {}
        # Of each link whether a byte is noticed, and the process that enabled it for its alternative.
        self.noticed, self.enabler = [False] * 4, [None] * 4
        self.leave()

    def copy(self):
        """Returns another one in the same state."""
        other = copy.copy(self)
        other.memory = self.memory.copy()
        other.queues, other.waiting = (self.queues[0][:], self.queues[1][:]), dict(self.waiting)
        other.noticed, other.enabler = self.noticed[:], self.enabler[:]
        return other

    def fetch(self, start):
        """Returns the instruction there."""
        operand, at = 0, start
        for _ in range(MOST_BYTES):
            self.memory.touch(at, 1, False)
            function, data = divmod(self.memory.get(at, 1)[0], 16)
            at = (at + 1) % MODULUS
            if function == PREFIX:
                operand = 16 * (operand + data)
            elif function == NEGATIVE_PREFIX:
                operand = 16 * ~(operand + data)
            else:
                operand = (operand + data) % MODULUS
                require(function != OPERATE or is_operation(operand, self.kind), "NoSuchOperation")
                return Fetched(OPERATION_NAMES[operand] if function == OPERATE else FUNCTIONS[function], operand, at)
        raise Break("LongPrefix")

    def text_at(self, start):
        """Returns the text of the instruction there, or the name of the break of its fetch."""
        try:
            return self.fetch(start).text()
        except Break as fault:
            return str(fault)

    def do_instruction(self):
        """Does the next instruction of the process that runs."""
        name, operand, after = self.fetch(self.iptr)
        before, self.iptr = self.iptr, after
        try:
            jumps = self.execute(name, operand)
        except Break:
            self.iptr = before
            raise
        if self.current == LOW and name != "endp":
            self.count = min(self.count + 1, self.timeslice)
            if jumps and self.count == self.timeslice:
                self.end_timeslice()
        return jumps

    def execute(self, name, operand):
        """Does an instruction by its name; Iptr is after it already. True if a timeslice may end at it."""
        if name in LOCAL:
            (self.a, self.b, self.c), fails = LOCAL[name](self.a, self.b, self.c, self.iptr)
            if fails:
                self.fail()
            return False
        if name in SIMPLE:
            SIMPLE[name](self, operand)
            return False
        code = getattr(self, f"do_{name}")
        return bool(code(operand) if name in FUNCTIONS else code())


def disassembly(segments, kind):
    """Yields the lines that tell the instructions of segments, for nodes of a kind."""
    for address, code in segments:
        node = Processor(FIRST - LOWEST + len(code), kind)
        node.memory.set(FIRST, code)
        at = FIRST
        while at < FIRST + len(code):
            try:
                found = node.fetch(at)
                after, text = found.after, found.text()
            except Break:
                after, text = at + 1, f"db {code[at - FIRST]:02x}"
            yield f"{(address + at - FIRST) % MODULUS:08x}: {text}"
            at = after
