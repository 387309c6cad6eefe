"""The places of the process machine, what is there, and the changes that a step makes (docs/MACHINE.md, section 17)."""
import dataclasses
import enum
from typing import NamedTuple, Optional

from words import MODULUS, NOT_PROCESS

UNKNOWN = (None,) * 4


def cells_of(number):
    """Returns the cells of a word that holds a number."""
    return tuple((number % MODULUS).to_bytes(4, "little"))


class Use(enum.Enum):
    """What a word of memory is used for."""

    FREE, SAVED, RECEIVING, CHANNEL, SPOILT = "free", "saved", "receiving", "channel", "spoilt"
    # The state of an alternative that is under way, and of one whose process waits for it or was made to go on.
    CHOICE, AWAITING = "choice", "awaiting"
    LAST_HIGH, LAST_LOW = "last high", "last low"


# What a step that touches a word as memory is refused for, by its use.
REFUSALS = {Use.SAVED: "SavedWord", Use.RECEIVING: "InTransit"}
# The uses of a count of which the last process has ended, by its priority.
LAST = (Use.LAST_HIGH, Use.LAST_LOW)


class Word(NamedTuple):
    """A word of memory: its four bytes, of which each may be unknown, and its use."""

    cells: tuple = (0, 0, 0, 0)
    use: Use = Use.FREE

    def number(self):
        """Returns the number that the word holds, or None if a byte is unknown."""
        return None if None in self.cells else int.from_bytes(bytes(self.cells), "little")


class Loan(NamedTuple):
    """The buffer of an output that was copied, until its sender goes on."""

    link: int
    buffer: int
    length: int


class Choice(NamedTuple):
    """An alternative that is under way, and whether it need not wait: since a guard without a channel was true, or
    since a channel made it go on."""

    skips: bool = False


@dataclasses.dataclass(frozen=True)
class Enabled:
    """The input of a channel or a link that a process has enabled."""

    process: tuple


@dataclasses.dataclass(frozen=True)
class Awaited:
    """The input of a channel or a link for which a process waits, and for others."""

    process: tuple


@dataclasses.dataclass(frozen=True)
class Fired:
    """The input of a link that made a process go on, which has not disabled it yet."""

    process: tuple


class Status(enum.Enum):
    """How a process stands: one that rests has given way, and goes on by a step of its own; one that chooses waits for
    the channels that it has enabled, and one that is chosen goes on since one of them made it ready. One that listens
    has disabled a link, and finds out by a step of its own that nobody sends there."""

    ABSENT, RESTS, RUNS, WAITS, ENDED = "absent", "rests", "runs", "waits", "ended"
    CHOOSES, CHOSEN, LISTENS = "chooses", "chosen", "listens"


# A process that stands so has a step.
READY = (Status.RESTS, Status.RUNS, Status.CHOSEN, Status.LISTENS)


class Context(NamedTuple):
    """What a process has: its registers, of which A, B, C may be unknown, how many processes it began, its loan, and
    its alternative."""

    priority: int
    wptr: int
    iptr: int
    stack: tuple = (0, 0, 0)
    children: int = 0
    loan: Optional[Loan] = None
    choice: Optional[Choice] = None


class Standing(NamedTuple):
    """How a process stands, and with what; at which channel of a link it listens, if it does."""

    status: Status = Status.ABSENT
    context: Optional[Context] = None
    channel: Optional[int] = None


class Kind(str, enum.Enum):
    """The kinds of places."""

    WORD = "word"  # a word of memory, by its number
    SENDING = "sending"  # how many outputs on links that are not over have a byte of a word, by its number
    STANDING = "process"  # how a process stands, by its name
    PORTS = "ports"  # the channels that a process has enabled, by its name
    # Half of an internal channel, by address and whether it is the input: None, an offer, or who has enabled it.
    HALF = "channel"
    LINK_HALF = "link"  # the same of a link, by number and whether it is the input
    UNFINISHED = "unfinished"  # whether an output was copied whose sender has not gone on, by the number of its link
    ERROR, HALTING = "Error", "HaltOnError"
    LIFE = "workspace"  # how many processes have a workspace, by its address
    SUCCESSIONS = "successors at"  # how many successors went on at a workspace, by its address
    MESSAGES = "messages"  # the messages of a source that are not yet taken
    KEPT = "kept"  # the messages that a sink took


class Place(NamedTuple):
    """A place of a node, a source or a sink."""

    kind: Kind
    node: int
    key: object = None


# What stands at each place before the first step, if nothing else is said.
FIRST_VALUES = {
    Kind.WORD: Word(), Kind.SENDING: 0, Kind.STANDING: Standing(), Kind.HALF: None, Kind.LINK_HALF: None,
    Kind.UNFINISHED: False, Kind.ERROR: False, Kind.HALTING: False, Kind.LIFE: 0, Kind.SUCCESSIONS: 0, Kind.KEPT: (),
    Kind.PORTS: (),
}


class Act(str, enum.Enum):
    """The kinds of changes; all but a Put are made without a look at what is there."""

    PUT = "put"
    ENGAGE = "engage"  # a channel word is in use
    DECREMENT_HIGH, DECREMENT_LOW = "decrement high", "decrement low"  # a process that a count counts has ended
    ADD = "add"
    RAISE = "raise"


# The changes of a count, by the priority of the process that ends.
DECREMENTS = (Act.DECREMENT_HIGH, Act.DECREMENT_LOW)


def commute(one, other):
    """Tells whether two changes of a place have the same result in both orders, whatever is there."""
    return one is other and one is not Act.PUT


class Change(NamedTuple):
    """A change of what stands at a place: a Put has the new value, an Add what is added."""

    act: Act
    operand: object = None

    def of(self, value):
        """Returns what it makes of a value."""
        if self.act is Act.PUT:
            return self.operand
        if self.act is Act.ADD:
            return value + self.operand
        if self.act is Act.RAISE:
            return True
        return engaged(value) if self.act is Act.ENGAGE else decremented(value, DECREMENTS.index(self.act))


def engaged(word):
    """Returns a channel word that is used: it was so before, or there was nobody."""
    is_good = word.use is Use.CHANNEL or word == Word(cells_of(NOT_PROCESS))
    return Word(UNKNOWN, Use.CHANNEL if is_good else Use.SPOILT)


def decremented(word, priority):
    """Returns a count of one process less; with the last one its successor is pending."""
    count = word.number()
    if word.use is not Use.FREE or count is None:
        return Word(UNKNOWN, Use.SPOILT)
    return Word(cells_of(count - 1), LAST[priority] if count == 1 else Use.FREE)


class AgentKind(str, enum.Enum):
    """The kinds of agents."""

    PROCESS = "process"  # by its name
    CHANNEL = "channel"  # by its address
    WIRE = "wire"  # by the link of the end that receives
    SUCCESSOR = "successor"  # by its workspace


class Agent(NamedTuple):
    """Who makes steps."""

    kind: AgentKind
    node: int
    key: object
