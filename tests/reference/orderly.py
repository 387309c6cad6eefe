"""Draws orderly nets: their processes share channels and links, and sometimes words, and messages give an order to what
they share. About half of them are certified (docs/MACHINE.md, section 17)."""
import draw
from draw import LOCALS, MESSAGE, push_link

# Which channels of a node have several senders; each process has one more for those that it begins.
OPEN_CHANNELS, OWN_CHANNEL = (12, 13), 5


class OrderlyNode(draw.Node):
    """A node whose processes stop at their ends, and share few words."""

    def end(self, number):
        return ["    stopp"]

    def shared(self):
        return self.data + 4 * self.CHANNELS + 4 * self.dice.randrange(4)


class Orderly(draw.Mesh):
    """Nodes of several processes, of which one has the turn: it alone uses shared words, except for rude ones, and it
    sends on the open ways, by which it hands the turn on. All other ways have one sender and one receiver."""

    NODE = OrderlyNode

    def __init__(self, dice, is_small=False):
        self.open_ways, self.senders, self.holder = [], {}, None
        self.rudeness = dice.choice([0, 0.2, 0.4, 0.6])
        super().__init__(dice, is_small, False)

    def way(self, sender, receiver):
        if self.dice.random() < 0.5:
            super().way(sender, receiver)
        else:
            here, there = self.nodes[sender[0]], self.nodes[receiver[0]]
            self.open_way(here, push_link(sender[1], False), there, push_link(receiver[1], True))

    def open_way(self, here, out, there, into):
        """A way that has several senders, and sometimes several receivers."""
        one = [self.dice.choice(there.processes)]
        self.open_ways.append((here, out, there.processes if self.dice.random() < 0.3 else one, into))

    def join_inside(self):
        super().join_inside()
        for node in self.nodes:
            for number in OPEN_CHANNELS:
                self.open_way(node, node.channel(number), node, node.channel(number))
        self.holder = self.dice.choice(self.every_process())

    def local(self):
        """Returns a word of a workspace that `endp` and `outword` leave as it is."""
        return self.dice.randint(2, LOCALS)

    def statement(self, process):
        kinds = ["message"] * 3 + ["turn"] * 4 + ["word"] * 4 + ["simple"] * 4
        kinds += ["script", "loop", "branch", "par", "wake"]
        getattr(self, f"add_{self.dice.choice(kinds)}")(process)

    def simple(self, process):
        """Returns instructions that touch the workspace of their process alone; the registers may be unknown."""
        dice, k = self.dice, self.local()
        return "    " + dice.choice([
            f"ldl {k}, adc {dice.randint(-9, 9)}, stl {self.local()}", f"ldl {k}, eqc 1, stl {self.local()}",
            f"ldl {k}, ldl {self.local()}, {dice.choice(['bsub', 'diff', 'xor', 'gt', 'rev'])}, stl {self.local()}",
            f"ldlp {k}, lb, stl {self.local()}", f"ldc {dice.randrange(256)}, ldlp {k}, sb", f"stl {k}",
            f"ldc {dice.randrange(99)}, j 0, stl {k}", f"ldlp {MESSAGE}, ldlp 4, ldc {dice.randint(0, 9)}, move",
            f"ldl {-dice.randint(1, 3)}, stl {k}", f"ldc 1, ldl {k}, ldl {k}, call routine, stl {k}",
            f"ldpri, stl {k}", f"ajw -2, ldl {k}, stl 4, j 0, ajw 2",
        ])

    def add_word(self, process):
        """Shared words are changed or read, or a rude one touches what a process may wait with."""
        is_rude = self.dice.random() < self.rudeness
        own = process if is_rude else self.holder
        if is_rude and self.dice.random() < 0.5:
            own.add("    " + self.touch(self.dice.choice(own.node.processes)))
            return
        word, other = (f"#{own.node.shared():08x}" for _ in range(2))
        own.add("    " + self.dice.choice([
            f"ldc {word}, ldnl 0, adc 1, ldc {word}, stnl 0", f"ldc {word}, ldnl 0, stl {self.local()}",
            f"ldl {self.local()}, ldc {word}, sb", f"ldc {word}, ldc {other}, ldc {self.dice.randint(0, 9)}, move",
        ]))

    def add_message(self, process):
        """A message on one of the ways of two processes."""
        if self.ways:
            sender, out, receiver, into = self.dice.choice(self.ways)
            self.send(sender, out, receiver, into, self.length(), False)

    def add_turn(self, process):
        """The process that has the turn hands it on by a message, to another one of its node or of another node."""
        own = self.holder
        ways = [(out, it, into) for here, out, receivers, into in self.open_ways if here is own.node
                for it in receivers if it is not own]
        if ways:
            # Often a way that another process of the node sent on before.
            again = [it for it in ways if self.senders.get((own.node, it[0]), own) is not own]
            out, self.holder, into = self.dice.choice(again if again and self.dice.random() < 0.6 else ways)
            self.senders[own.node, out] = own
            self.send(own, out, self.holder, into, self.length(), self.dice.random() < 0.25)

    def send(self, sender, out, receiver, into, length, has_shared_buffer):
        """Adds both sides of a message."""
        if has_shared_buffer:
            sender.add(f"    ldc #{sender.node.shared():08x}, {out}, ldc {length}, out")
        else:
            sender.add(self.output(out, length))
        receiver.add(self.input(into, length))

    def add_par(self, process):
        """Another process that sends to this one, and joins it at its end."""
        node = process.node
        if not node.has_room():
            return
        child, begins, successor = self.start_child(process)
        channel = node.channel(OWN_CHANNEL + node.processes.index(process))
        for _ in range(self.dice.randint(0, 2)):
            length, (sender, receiver) = self.length(), self.dice.sample([process, child], 2)
            # No outword: it would write over the address that endp needs.
            sender.add(f"    ldlp {MESSAGE}, {channel}, ldc {length}, out")
            receiver.add(self.input(channel, length))
            process.add(self.simple(process))
            child.add(self.simple(child))
        process.add(f"    ldc #{process.workspace:08x}, endp", f"{successor}:")
        node.behind += [f"{begins}:", *child.lines, f"    ldc #{process.workspace:08x}, endp"]


def orderly(dice):
    """Draws an orderly net."""
    return Orderly(dice).whole()
