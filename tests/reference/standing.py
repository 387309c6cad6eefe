"""Where the processes and links of a net are, as `temu where` tells it (docs/MACHINE.md, section 15, Where)."""
import collections

from channels import ALTERNATIVE, OnChannel, OnLink
from formats import heading
from net import LINKS, Sink, Source, links_of
from processes import HIGH, LOW
from processor import Processor
from words import IPTR, address, workspace_of


def standing_of(net):
    """Returns the lines that tell where the parts of a net are, and why nothing goes on in it."""
    lines = []
    for number, part in enumerate(net.parts):
        lines.append(heading(net, number))
        if isinstance(part, Processor):
            lines += processes_of(net, number, part)
        for link in links_of(part):
            lines += link_lines(net, number, part, link)
    if net.is_quiet():
        stuck = stuck_lines(net)
        lines += [line for line, _ in stuck] + circles_of([it for _, it in stuck if it])
    return lines


def halted_lines(net):
    """Returns a line for each event that halted a node: `where` alone has them, after all these."""
    return [f"halted node {number} by event {event}: {address(at)}: {text}" for number, event, at, text in net.halts]


def fact(name, told):
    return f"  {name:<14}{told}"


def processes_of(net, number, part):
    """Returns the lines of the processes of a node."""
    lines = []
    if part.current is None:
        lines += [fact("runs", "none"), *flag_lines(part)]
    else:
        lines += [fact("runs", f"{address(part.own())} {('high', 'low')[part.current]}"), *register_lines(part, part)]
    if part.interrupted:
        lines += [fact("interrupted", f"{address(part.interrupted.wptr + LOW)} low")]
        lines += register_lines(part, part.interrupted)
    for priority, name in ((HIGH, "high queue"), (LOW, "low queue")):
        lines += [fact(name, saved(part, it)) for it in part.queues[priority]]
    for process in sorted(part.waiting):
        told = waits_for(net, number, part, part.waiting[process])
        lines.append(fact("waits", f"{saved(part, process)}, {told}"))
    return lines


def flag_lines(registers):
    flags = (("Error", registers.error), ("HaltOnError", registers.halt_on_error))
    return [f"    {name:<12}set" for name, is_set in flags if is_set]


def register_lines(part, registers):
    """Returns the lines of registers, those of a part or those that it kept."""
    lines = [f"    {'Iptr':<12}{address(registers.iptr)}: {part.text_at(registers.iptr)}"]
    lines += [f"    {name:<12}{address(getattr(registers, name.lower()))}" for name in ("A", "B", "C", "Wptr")]
    return lines + flag_lines(registers)


def saved(part, process):
    """Returns a process with its Iptr."""
    iptr = part.memory.word(workspace_of(process) - IPTR)
    return f"{address(process)} Iptr {address(iptr)}: {part.text_at(iptr)}"


def waits_for(net, number, part, reason):
    """Returns what a process waits for."""
    if reason == ALTERNATIVE:
        return "alternative"
    way = "input" if reason.is_input else "output"
    if isinstance(reason, OnChannel):
        return f"{way} on channel {address(reason.channel)}, buffer {address(reason.buffer)} length {reason.length}"
    offer = (part.memory.inputs if reason.is_input else part.memory.outputs)[reason.link]
    end = net.ends[number, reason.link]
    over = end.got if reason.is_input else end.acked
    where = link_told(net, (number, reason.link), reason.is_input)
    return f"{way} on {where}, buffer {address(offer.buffer)} length {offer.length} over {over}"


def link_told(net, end, is_input):
    """Returns a link with its far end."""
    far = net.far.get(end)
    if far is None:
        return f"link {end[1]}, no wire"
    return f"link {end[1]} {'from' if is_input else 'to'} {far[0]}.{far[1]}"


def link_lines(net, number, part, link):
    """Returns the lines of a link."""
    end, told = net.ends[number, link], []
    if part.output(link) is not None:
        told.append(f"sent {end.sent} acknowledged {end.acked}")
    if part.awaits(link) is not None:
        told.append(f"got {end.got}")
    if end.arrived:
        told.append(f"byte waits {byte_told(end.arrived)}")
    if end.data:
        told.append(f"packet data {byte_told(end.data)}")
    if end.ack:
        told.append("packet acknowledge")
    if isinstance(part, Processor) and part.enabler[link] is not None:
        told.append(f"enabled by {address(part.enabler[link])}")
    return [fact(f"link {link}", it) for it in told]


def byte_told(byte_with_mark):
    byte, is_last = byte_with_mark
    return f"{byte:02x}" + (" last" if is_last else "")


def stuck_lines(net):
    """Returns a line for each link that anyone waits for, with the numbers of the two that it joins, or None."""
    lines = []
    for number, part in enumerate(net.parts):
        for who, way, link, is_input in waiters(net, number, part):
            far = net.far.get((number, link))
            lack = "" if far is None else f", {lacking(net, number, far, is_input)}"
            told = f"stuck {who}: {way} on {link_told(net, (number, link), is_input)}{lack}"
            lines.append((told, far and (number, far[0])))
    return lines


def waiters(net, number, part):
    """Yields who waits at a link, for what, at which link, and whether a byte has to come."""
    if isinstance(part, Source):
        if part.output(0) is not None:
            yield f"source {number}", "output", 0, False
    elif isinstance(part, Sink):
        if net.ends[number, 0].got:
            yield f"sink {number}", "input", 0, True
    else:
        for process, reason in sorted(part.waiting.items(), key=lambda it: it[0]):
            who = f"{address(process)} of {number}"
            if isinstance(reason, OnLink):
                yield who, "input" if reason.is_input else "output", reason.link, reason.is_input
            elif reason == ALTERNATIVE:
                yield from ((who, "alternative", it, True) for it in range(LINKS) if part.enabler[it] == process)


def lacking(net, number, far, is_input):
    """Returns what is lacking for a link with a wire, as the first of what may be."""
    part, there = net.parts[number], net.parts[far[0]]
    for it in (number, far[0]):
        if net.frozen[it]:
            return f"node {it} is frozen"
    if isinstance(there, Sink) and not is_input:
        return "no room there"
    if isinstance(part, Sink):
        return "no room here"
    has_other_half = (there.output(far[1]) if is_input else there.awaits(far[1])) is not None
    if there.is_halted and not has_other_half:
        return f"node {far[0]} is halted"
    return "no output there" if is_input else "no input there"


def circles_of(joined):
    """Returns a line for each circle of nodes that wait for one another, from pairs of who waits for whom."""
    waits = collections.defaultdict(set)
    for one, other in joined:
        waits[one].add(other)
    circles = [circle_from(lowest, waits) for lowest in sorted(waits)]
    return ["circle " + " waits for ".join(map(str, it)) for it in circles if it]


def circle_from(lowest, waits):
    """Returns the shortest circle of a node over nodes of higher numbers, of several the first, or None."""
    # Paths of one length are in the order of numbers; the first to a node is the one that counts.
    paths, seen = collections.deque([(lowest,)]), {lowest}
    while paths:
        path = paths.popleft()
        nexts = waits.get(path[-1], ())
        if lowest in nexts:
            return (*path, lowest)
        paths.extend((*path, it) for it in sorted(nexts) if it > lowest and it not in seen)
        seen.update(nexts)
    return None
