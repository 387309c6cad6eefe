"""The berths of the nodes, which processes take by turns: so no run has more of them at a node at the same time
(docs/MACHINE.md, section 17)."""
from typing import NamedTuple

from places import Kind, Status
from processes import MOST_LIVE


class Berth(NamedTuple):
    """A berth: the process that has it, or None, and the last step that took or left it, by its agent and its count in
    the clock of that; the count is 0 if there was none."""

    guest: object = None
    agent: object = None
    count: int = 0


class Berths:
    """The berths of each node. The first ones belong to the processes of its image."""

    def __init__(self, machine):
        self.machine, self.nodes = machine, []
        for node in machine.net.plan.nodes:
            guests = [Berth((place,)) for place, _ in enumerate(node.processes)]
            self.nodes.append(guests + [Berth()] * (MOST_LIVE - len(guests)))

    def follow(self, step, clock):
        """Who begins in a step takes a berth, and who ends leaves its own; `clock` is that of the step. Tells whether
        there was a berth."""
        for place, value in step.after.items():
            if place.kind is not Kind.STANDING:
                continue
            if value.status is Status.ENDED:
                number, guest = self.home(place), None
            elif self.machine.value(place).status is Status.ABSENT:
                number, guest = self.known_to_be_free(place.node, clock), place.key
            else:
                continue
            if number is None:
                return False
            self.nodes[place.node][number] = Berth(guest, step.agent, clock[step.agent])
        return True

    def home(self, place):
        """Returns the number of the berth that a process has."""
        return next(number for number, it in enumerate(self.nodes[place.node]) if it.guest == place.key)

    def known_to_be_free(self, node, clock):
        """Returns the number of the first berth that is free and whose last step the clock has counted, or None."""
        return next((number for number, it in enumerate(self.nodes[node])
                     if it.guest is None and clock.get(it.agent, 0) >= it.count), None)
