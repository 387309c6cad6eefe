"""Alternatives in the process machine (docs/MACHINE.md, section 17): a process enables channels, waits until one of
them has a sender, and disables them. The channel that has one makes the process go on. Whether a link has done so is
seen where it is disabled; at one that has not nobody may send."""
from channels import is_link
from memory import Offer, require
from places import UNKNOWN, Act, Awaited, Choice, Enabled, Fired, Kind, Standing, Status, Use, Word, cells_of
from words import MODULUS, NEXT, NONE_SELECTED, NOT_PROCESS, STATE


class Choosing:
    """What a process does in an alternative."""

    def go_on_chosen(self):
        """The process waited for its channels and runs from now on."""
        self.change_use(Use.AWAITING, Use.CHOICE)
        self.memory.restore(self.wptr, NEXT)
        self.leave_with(self.context.stack)

    def known(self, register):
        """Checks that a register is known, by its number."""
        require(self.context.stack[register] is not None, "SawTheScheduler")

    def number_at(self, address):
        """Returns the number of a word that was touched, which has to be known."""
        number = self.step.left(self.memory.word_place(address)).number()
        require(number is not None, "SawTheScheduler")
        return number

    def use_state(self, use):
        """The state of the alternative has this use from now on."""
        self.step.put(self.memory.word_place(self.wptr - STATE), Word(UNKNOWN, use))

    def change_use(self, old, new):
        """The state of the alternative has another use from now on."""
        self.memory.touch((self.wptr - STATE) % MODULUS, 4, False, use=old)
        self.use_state(new)

    def has_begun(self):
        """Checks that an alternative is under way."""
        require(self.choice is not None, "WordInUse")

    def under_way(self):
        """Checks that an alternative is under way, and its state."""
        self.has_begun()
        self.memory.use_word((self.wptr - STATE) % MODULUS, Use.CHOICE)

    def ports(self):
        """Looks at the channels that the process has enabled."""
        return self.step.look(self.step.place(Kind.PORTS, self.step.agent.key))

    def set_ports(self, ports):
        self.step.put(self.step.place(Kind.PORTS, self.step.agent.key), ports)

    def input(self, channel):
        """Returns the place of the input half of a channel, which may be a link's."""
        if is_link(channel):
            return self.step.place(Kind.LINK_HALF, (self.link_of(True, channel), True))
        return self.step.place(Kind.HALF, (channel, True))

    def channel_of_guard(self, channel, register):
        """Checks the channel of a guard that is true, which is in a register of this number."""
        self.known(register)
        if is_link(channel):
            self.link_of(True, channel)
        else:
            require(channel % 4 == 0, "Unaligned")
            self.memory.bound(channel, 4)

    def has(self, found, *ways):
        """Tells whether the own process has the input half of a channel, in one of these ways."""
        return isinstance(found, ways) and found.process == self.step.agent.key

    def do_alt(self):
        self.memory.touch_word(self.wptr - STATE, True)
        self.use_state(Use.CHOICE)
        self.choice = Choice()

    def do_enbc(self):
        self.under_way()
        self.known(0)
        if self.a != 0:
            self.channel_of_guard(self.b, 1)
            self.enable(self.b)
        self.b = self.c

    def enable(self, channel):
        """Enables a channel, without a look at its sender."""
        half, own = self.input(channel), Enabled(self.step.agent.key)
        found = self.step.look(half)
        require(found in (None, own), "LinkBusy" if is_link(channel) else "ChannelMisuse")
        if found is None:
            self.step.put(half, own)
        if not is_link(channel):
            self.memory.not_sent(self.memory.word_place(channel))
            if found is None:
                self.step.change(self.memory.word_place(channel), Act.ENGAGE)
        ports = self.ports()
        self.set_ports(ports if channel in ports else (channel, *ports))

    def do_enbs(self):
        self.under_way()
        self.known(0)
        self.choice = Choice(self.choice.skips or self.a != 0)

    def do_altwt(self):
        self.memory.touch_word(self.wptr, True)
        self.memory.set_cells(self.wptr, cells_of(NONE_SELECTED))
        self.under_way()
        if self.choice.skips:
            return
        for channel in self.ports():
            found = self.step.look(self.input(channel))
            require(self.has(found, Enabled), "LinkBusy" if is_link(channel) else "ChannelMisuse")
            self.step.put(self.input(channel), Awaited(self.step.agent.key))
        self.change_use(Use.CHOICE, Use.AWAITING)
        self.memory.save_upper(self.wptr)
        self.status = Status.CHOOSES

    def do_disc(self):
        self.has_begun()
        self.known(1)
        is_ready = False
        if self.b != 0:
            # Else the process is before its `altwt`, and a sender that waits there would not make it go on.
            require(self.choice.skips, "WordInUse")
            self.channel_of_guard(self.c, 2)
            is_ready = self.disable_link(self.c) if is_link(self.c) else self.disable(self.c)
        self.select(is_ready)

    def disable(self, channel):
        """Disables a channel; tells whether a sender waits. One for which the process waited did not make it go on, so
        no sender may be there."""
        found, is_ready = self.step.look(self.input(channel)), has_sender(self.step, channel)
        require(self.has(found, Enabled, Awaited), "ChannelMisuse")
        require(isinstance(found, Enabled) or not is_ready, "SeveralReady")
        self.give_up(channel)
        self.memory.use_word(channel, Use.CHANNEL)
        if not is_ready:
            self.step.put(self.memory.word_place(channel), Word(cells_of(NOT_PROCESS)))
        return is_ready

    def give_up(self, channel):
        """The process has the input of a channel enabled no more."""
        self.step.put(self.input(channel), None)
        self.set_ports(tuple(it for it in self.ports() if it != channel))

    def disable_link(self, channel):
        """Disables a link; tells whether it made the process go on. Where it did not, the process listens next."""
        found = self.step.look(self.input(channel))
        require(self.has(found, Enabled, Awaited, Fired), "LinkBusy")
        if isinstance(found, Fired):
            self.give_up(channel)
            return True
        self.status, self.channel = Status.LISTENS, channel
        return False

    def listen(self, channel):
        """Nobody may send at the far end of a link that is disabled: timing would decide whether a byte is noticed."""
        far = self.step.machine.output_to(self.step.agent.node, self.link_of(True, channel))
        require(far is None or not self.step.look(far), "SeveralReady")
        require(self.has(self.step.look(self.input(channel)), Enabled, Awaited), "HasNoStep")
        self.give_up(channel)
        self.leave_with(self.context.stack)

    def do_diss(self):
        self.has_begun()
        self.known(1)
        self.select(self.b != 0)

    def select(self, is_ready):
        """Chooses a guard that is ready, if it is the first."""
        self.memory.touch_word(self.wptr, True)
        is_chosen = is_ready and self.number_at(self.wptr) == NONE_SELECTED
        if is_chosen:
            self.known(0)
            self.memory.set_cells(self.wptr, cells_of(self.a))
        self.a, self.b = int(is_chosen), self.c

    def do_altend(self):
        self.under_way()
        require(not self.ports(), "WordInUse")
        self.memory.touch_word(self.wptr, False)
        self.jump(self.iptr + self.number_at(self.wptr))
        self.use_state(Use.FREE)
        self.choice = None


def has_sender(step, channel):
    """Looks whether a sender waits at a channel of the agent's node."""
    return isinstance(step.look(step.place(Kind.HALF, (channel, False))), Offer)


def lets_go_on(step, process):
    """A channel that has a sender makes the process go on that waits for it and for others, if no other one has one."""
    place, channel = step.place(Kind.STANDING, process), step.agent.key
    standing = step.look(place)
    require(standing.status is Status.CHOOSES, "SeveralReady")
    for other in step.look(step.place(Kind.PORTS, process)):
        require(other == channel or is_link(other) or not has_sender(step, other), "SeveralReady")
    step.put(step.place(Kind.HALF, (channel, True)), Enabled(process))
    step.put(place, Standing(Status.CHOSEN, standing.context._replace(choice=Choice(True))))


def link_lets_go_on(step, process):
    """A link at which a message is offered makes the process go on that waits for it and for others."""
    place = step.place(Kind.STANDING, process)
    standing = step.look(place)
    require(standing.status is Status.CHOOSES, "SeveralReady")
    step.put(step.place(Kind.LINK_HALF, (step.agent.key, True)), Fired(process))
    step.put(place, Standing(Status.CHOSEN, standing.context._replace(choice=Choice(True))))
