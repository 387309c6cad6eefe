"""The check of a run of the process machine for races, in one pass, with a clock for each agent (docs/MACHINE.md,
section 17)."""
import collections
from typing import NamedTuple, Optional

from berths import Berths
from places import DECREMENTS, Act, Kind, Place, commute
from process_machine import is_open

LOOK = "look"
# The gates that a step may see shut which then leads to a step of the gate's agent; of a count, a change does so.
SEEN_GATES = (Kind.STANDING, Kind.HALF, Kind.LINK_HALF, Kind.MESSAGES)
MODES = (LOOK, *Act)
# With which kinds of access each kind collides.
COLLIDING = {one: [other for other in MODES
                   if (one, other) != (LOOK, LOOK) and not commute(one, other)] for one in MODES}


class Done(NamedTuple):
    """A step as it is told, by its number among the steps of its agent."""

    number: int
    agent: tuple
    iptr: Optional[int]
    text: str


class Access(NamedTuple):
    """The last access of a kind that an agent had to a place, and as what it is told."""

    count: int
    done: Done
    told: object


class Race(NamedTuple):
    """Two accesses to a place of which none has to come first."""

    place: Place
    earlier: Access
    last: Access


class RaceCheck:
    """What a check keeps: the clock and the count of each agent, the clocks that lead to an agent through its gates,
    and for each place the last access of each kind by each agent."""

    def __init__(self, machine):
        self.machine = machine
        self.clocks = collections.defaultdict(dict)
        self.counts = collections.defaultdict(lambda: 1)
        self.leading, self.accesses = {}, collections.defaultdict(dict)

    def enter(self, step, number):
        """A step is judged: returns its race with an earlier one, or None; its accesses are noted."""
        agent, clock = step.agent, self.clocks[step.agent]
        for gate in self.machine.gates(agent):
            join(clock, self.leading.pop(gate, {}))
        done = Done(number, agent, step.iptr, step.text)
        for place, mode in dict.fromkeys(accesses_of(step)):
            access = Access(self.counts[agent], done, told_as(step, place, mode))
            seen = self.accesses[place]
            for other in COLLIDING[mode]:
                for who, earlier in seen.get(other, {}).items():
                    if who != agent and clock.get(who, 0) < earlier.count:
                        return Race(place, earlier, access)
            seen.setdefault(mode, {})[agent] = access
        self.lead(step)
        return None

    def lead(self, step):
        """Hands the clock of a step on to those to which it leads."""
        agent, clock = step.agent, self.clocks[step.agent]
        clock[agent] = self.counts[agent]
        gates = dict.fromkeys(gates_led_through(step))
        for gate in gates:
            if self.machine.agent_at(gate) != agent:
                join(self.leading.setdefault(gate, {}), clock)
        if gates:
            self.counts[agent] += 1


def join(clock, other):
    """A clock knows all that another one knows."""
    for who, count in other.items():
        if clock.get(who, 0) < count:
            clock[who] = count


def accesses_of(step):
    """Yields each place that a step has access to, and how. The channels that a process has enabled count as its
    state."""
    for place, mode in [*((it, LOOK) for it, _ in step.seen), *((it, change.act) for it, change in step.changes)]:
        yield place._replace(kind=Kind.STANDING) if place.kind is Kind.PORTS else place, mode


def told_as(step, place, mode):
    """Returns as what an access is told: a look of a step that also puts the word is part of that."""
    word = place._replace(kind=Kind.WORD) if place.kind is Kind.SENDING else place
    return Act.PUT if mode == LOOK and (word, Act.PUT) in accesses_of(step) else mode


def gates_led_through(step):
    """Yields the gates through which a step leads to steps of others."""
    for place, value in step.seen:
        if place.kind in SEEN_GATES and not is_open(place.kind, value):
            yield place
    for place, change in step.changes:
        if change.act in DECREMENTS:
            yield place


class Verdict(NamedTuple):
    """What is told of a run: the number of its steps, and its race, or why it is refused, and at which step or
    node."""

    steps: int
    race: Optional[Race] = None
    refusal: Optional[str] = None
    at: object = None

    def is_certified(self):
        return self.race is None and self.refusal is None


def certify(machine, most, choose=lambda ready: next(iter(ready)), tell=lambda step: None):
    """Runs the process machine with the check, up to its end, a race, a step that stops, a process without a berth, or
    `most` steps."""
    check, berths, number, own = RaceCheck(machine), Berths(machine), 0, collections.Counter()
    while machine.ready:
        if number == most:
            return Verdict(number, refusal="Steps")
        step = machine.step_of(choose(machine.ready))
        own[step.agent] += 1
        if step.stop:
            # Where nothing is fetched, why it is not stands in place of the instruction.
            at = Done(own[step.agent], step.agent, step.iptr, step.text or step.stop)
            return Verdict(number, refusal=step.stop, at=at)
        race = check.enter(step, own[step.agent])
        if race:
            return Verdict(number, race=race)
        tell(step)
        has_berth = berths.follow(step, check.clocks[step.agent])
        machine.do(step)
        number += 1
        if not has_berth:
            return Verdict(number, refusal="TooManyProcesses", at=step.agent.node)
    refusal, node = machine.refusal() or (None, None)
    return Verdict(number, refusal=refusal, at=node)
