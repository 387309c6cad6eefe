"""What is printed of a run of the process machine (docs/MACHINE.md, section 17)."""
import races
from certificate import Certificate
from places import Act, AgentKind, Kind
from words import LOWEST, address

# What an access is called, by its kind and its place.
VERBS = {(races.LOOK, Kind.SENDING): "claims", (races.LOOK, None): "reads", (Act.PUT, None): "writes",
         (Act.ADD, Kind.SENDING): "sends"}


def name_of(process):
    """Returns the name of a process: its number in the image, or where it followed a PAR, and then which it began."""
    if process[0] == "after":
        return ".".join([f"after {address(process[1])}", *map(str, process[2:])])
    return ".".join(map(str, process))


def agent_text(agent):
    """Returns the name of an agent."""
    kind, node, key = agent
    if kind is AgentKind.WIRE:
        return f"wire to {node}.{key}"
    if kind is AgentKind.PROCESS:
        return f"node {node} process {name_of(key)}"
    # A successor is told by the word of its count.
    return f"node {node} {kind.value} {address(key + 4 if kind is AgentKind.SUCCESSOR else key)}"


def step_text(done):
    """Returns what tells a step: its agent, its number among the steps of that, and what a process does."""
    code = "" if done.iptr is None else f" {address(done.iptr)} {done.text}"
    return f"{agent_text(done.agent)} step {done.number}{code}"


def place_text(place):
    """Returns the name of a place."""
    kind, node, key = place
    if kind in (Kind.WORD, Kind.SENDING):
        return f"node {node} word {address(LOWEST + 4 * key)}"
    if kind is Kind.UNFINISHED:
        return f"node {node} output of link {key}"
    if kind in (Kind.HALF, Kind.LINK_HALF):
        side = "input" if key[1] else "output"
        return f"node {node} {side} of {kind.value} {address(key[0]) if kind is Kind.HALF else key[0]}"
    if kind is Kind.STANDING:
        return f"node {node} process {name_of(key)}"
    if kind in (Kind.ERROR, Kind.HALTING):
        return f"node {node} flag {kind.value}"
    if kind in (Kind.MESSAGES, Kind.KEPT):
        return f"node {node}"
    return f"node {node} {kind.value} {address(key)}"


def access_text(place, access):
    """Returns the line of an access."""
    verb = VERBS.get((access.told, place.kind)) or VERBS.get((access.told, None)) or "changes"
    return f"{verb} {place_text(place)}: {step_text(access.done)}"


def told(net, most):
    """Returns the text of a run of a net's process machine, by at most `most` steps, and the status."""
    run = Certificate(net, most)
    verdict = run.verdict
    if verdict.is_certified():
        return run.text(), 0
    if verdict.race:
        place, *accesses = verdict.race
        lines = [access_text(place, it) for it in accesses]
        return "\n".join(["race", *lines, f"end race {verdict.steps}", ""]), 1
    at = verdict.at
    where = "" if at is None else f" node {at}" if isinstance(at, int) else f" {step_text(at)}"
    return f"refused {verdict.refusal}{where}\nend refused {verdict.steps}\n", 5
