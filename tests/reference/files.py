"""The files of a net: a wiring with its images, and a log; what is wrong with them is told as `temu` tells it."""
import pathlib
import re

import formats
import images
import rounds
from net import BadNet, Net


class Fault(Exception):
    """A fault of an input, as its line tells it."""


def shown(name):
    """Returns the name of a file, with the bytes of control characters."""
    def bytes_of(control):
        return "".join(f"\\x{it:02x}" for it in control[0].encode())

    return re.sub(r"[\x00-\x1f\x7f-\x9f]", bytes_of, str(name))


def read(name):
    """Returns the bytes of a file."""
    try:
        return pathlib.Path(name).read_bytes()
    except (OSError, ValueError) as fault:
        raise Fault(f"file {shown(name)}") from fault


def read_net(name, log=None):
    """Returns the plan of a wiring with the images of its nodes, its holds, and the events of a log, if there is one."""
    try:
        plan, paths, holds = formats.read_wiring(read(name).decode())
    except UnicodeDecodeError as fault:
        raise Fault(f"file {shown(name)}") from fault
    except formats.BadWiring as fault:
        raise Fault(f"wiring {fault}") from fault
    contents, events = [read(it) for it in paths], read_events(log) if log else None
    # What is in the images is judged after the log.
    for number, (node, content) in enumerate(zip(plan.nodes, contents)):
        node.segments, node.processes = read_image(content, number)
    return plan, holds, events


def read_events(name):
    """Returns the events of a log."""
    try:
        return formats.read_log(read(name))
    except formats.BadLog as fault:
        raise Fault(f"log line {fault}") from fault


def read_image(content, number=0):
    """Returns the segments and the processes of the image of a node."""
    try:
        return images.read_image(content)
    except images.BadImage as fault:
        raise Fault(f"image {number} {fault}") from fault


def net_of(plan):
    """Returns the net of a plan before its first event."""
    try:
        return Net(plan)
    except BadNet as fault:
        raise Fault(f"net {fault}") from fault


def run(net, holds, slice_, most):
    """Does rounds, and returns their events and the last line."""
    bad = rounds.bad_hold(net, holds)
    if bad is not None:
        raise Fault(f"rounds BadHold {bad}")
    return rounds.run(net, holds, slice_, most)


def replay(net, events):
    """Does all events of a log, and returns the last line."""
    early = rounds.replay(net, events)
    if early is not None:
        raise Fault(f"replay event {early}")
    return f"end replay {len(events)}"
