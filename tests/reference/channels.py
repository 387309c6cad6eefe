"""Messages on channels and links, and alternatives (docs/MACHINE.md, sections 7 to 9)."""
import collections
import functools

from memory import Break, Offer, require
from words import (BEHIND_LINKS, ENABLING, LOWEST, NONE_SELECTED, NOT_PROCESS, READY, STATE, WAITING, workspace_of)

# What a process waits for: a message on an internal channel, a link, or a guard of its alternative.
OnChannel = collections.namedtuple("OnChannel", "is_input channel buffer length")
OnLink = collections.namedtuple("OnLink", "is_input link")
ALTERNATIVE = "alternative"


def is_link(channel):
    """Tells whether a channel is a link's."""
    return LOWEST <= channel < BEHIND_LINKS


class Channels:
    """What a processor does at channels, and what its links ask for and are told."""

    def do_in(self):
        self.message(True, self.a, self.b, self.c)

    def do_out(self):
        self.message(False, self.a, self.b, self.c)

    def do_outbyte(self):
        self.message(False, 1, self.b, self.wptr, self.a)

    def do_outword(self):
        self.message(False, 4, self.b, self.wptr, self.a)

    def message(self, is_input, length, channel, buffer, word=None):
        """A message on a channel, before which a word goes to w(0) if there is one; all checks come before that."""
        if word is not None:
            self.memory.touch_word(self.wptr, True)
        on_channel = self.on_link if is_link(channel) else self.on_internal_channel
        change = on_channel(is_input, length, channel, buffer)
        if word is not None:
            self.memory.set_word(self.wptr, word)
        change()
        if self.current is not None:
            self.pop(3)

    def own_side(self, is_input, length, channel, buffer):
        """The checks of a process that is to wait at an internal channel."""
        self.memory.may_leave(self.wptr)
        self.memory.touch_word(channel, True, self.wptr)
        self.memory.touch(buffer, length, is_input, self.wptr)

    def on_internal_channel(self, is_input, length, channel, buffer):
        """Checks a message on an internal channel, and returns the change that is to be made."""
        self.memory.touch_word(channel, True)
        partner = self.memory.word(channel)
        reason = self.waiting.get(partner)
        if isinstance(reason, OnChannel) and (reason.is_input, reason.channel) == (not is_input, channel):
            require(reason.length == length, "LengthMismatch")
            self.memory.touch(buffer, length, is_input)
            self.memory.touch(reason.buffer, length, not is_input)
            source, target = (reason.buffer, buffer) if is_input else (buffer, reason.buffer)
            return functools.partial(self.meet, channel, partner, source, target, length)
        tells = partner != NOT_PROCESS
        if tells:
            require(not is_input, "ChannelMisuse")
            self.may_tell(partner, reason)
        self.own_side(is_input, length, channel, buffer)
        return functools.partial(self.wait_on_channel, OnChannel(is_input, channel, buffer, length), partner, tells)

    def may_tell(self, process, reason):
        """Checks that an output may make the alternative of a process ready."""
        if reason == ALTERNATIVE:
            return
        state = workspace_of(process) - STATE
        if not self.is_queued(process):
            require(reason is None and self.is_interrupted(process), "ChannelMisuse")
            self.memory.touch_word(state, True)
        require(self.memory.word(state) in (ENABLING, READY), "ChannelMisuse")

    def meet(self, channel, partner, source, target, length):
        """The whole message passes."""
        self.memory.set_word(channel, NOT_PROCESS)
        if length:
            self.memory.copy_bytes(target, source, length)
        self.release(partner)

    def wait_on_channel(self, reason, partner, tells):
        """The process that runs waits for its partner, and makes the alternative of one ready."""
        self.memory.set_word(reason.channel, self.own())
        self.memory.set_word(self.wptr - STATE, reason.buffer)
        self.wait(reason)
        if tells:
            self.memory.set_word(workspace_of(partner) - STATE, READY)
            if self.waiting.get(partner) == ALTERNATIVE:
                self.release(partner)

    def link_of(self, is_input, channel):
        """Returns the link that a channel names."""
        require(channel % 4 == 0, "Unaligned")
        is_input_word, link = divmod((channel - LOWEST) // 4, 4)
        require(bool(is_input_word) == is_input, "WrongEnd")
        return link

    def on_link(self, is_input, length, channel, buffer):
        """Checks a message on a link, and returns the change that is to be made."""
        link = self.link_of(is_input, channel)
        require(length != 0, "ZeroLength")
        if is_input:
            self.may_ask(link)
        else:
            require(self.memory.outputs[link] is None, "LinkBusy")
        self.memory.may_leave(self.wptr)
        self.memory.touch(buffer, length, is_input, self.wptr)
        return functools.partial(self.offer, is_input, link, buffer, length)

    def may_ask(self, link):
        """Checks that the process that runs may ask for the input of a link."""
        require(self.memory.inputs[link] is None and self.enabler[link] in (None, self.own()), "LinkBusy")

    def offer(self, is_input, link, buffer, length):
        """A message pends at a link."""
        offers = self.memory.inputs if is_input else self.memory.outputs
        offers[link] = Offer(self.own(), buffer, length)
        if is_input:
            self.enabler[link], self.noticed[link] = None, False
        self.wait(OnLink(is_input, link))

    # Alternatives.

    def do_alt(self):
        self.write(self.wptr - STATE, ENABLING)

    def state(self):
        """Returns the state of the alternative, after its check."""
        self.memory.touch_word(self.wptr - STATE, True)
        state = self.memory.word(self.wptr - STATE)
        require(state in (ENABLING, READY), "ChannelMisuse")
        return state

    def make_ready(self):
        self.memory.set_word(self.wptr - STATE, READY)

    def do_enbc(self):
        self.state()
        if self.a != 0:
            self.enable(self.b)
        self.b = self.c

    def do_enbs(self):
        self.state()
        if self.a != 0:
            self.make_ready()

    def do_altwt(self):
        self.memory.touch_word(self.wptr, True)
        waits = self.state() == ENABLING
        if waits:
            self.memory.may_leave(self.wptr)
        self.memory.set_word(self.wptr, NONE_SELECTED)
        if waits:
            self.memory.set_word(self.wptr - STATE, WAITING)
            self.wait(ALTERNATIVE)

    def enable(self, channel):
        """Enables the channel of a guard."""
        if is_link(channel):
            link = self.link_of(True, channel)
            self.may_ask(link)
            if self.noticed[link]:
                self.make_ready()
            else:
                self.enabler[link] = self.own()
        elif self.guard_of(channel) in ("nobody", "own"):
            self.memory.set_word(channel, self.own())
        else:
            self.make_ready()

    def guard_of(self, channel):
        """Returns, after the checks of an internal channel's guard, whether nobody is there, its own process or a
        sender."""
        self.memory.touch_word(channel, True)
        process = self.memory.word(channel)
        reason = self.waiting.get(process)
        if process == NOT_PROCESS:
            return "nobody"
        # A descriptor that fits a queued or waiting process as well names that one.
        if process == self.own() and reason is None and not self.is_queued(process):
            return "own"
        is_sender = isinstance(reason, OnChannel) and (reason.is_input, reason.channel) == (False, channel)
        require(is_sender, "ChannelMisuse")
        return "sender"

    def do_disc(self):
        offset, guard, channel = self.a, self.b, self.c
        is_ready, link, stands = False, None, None
        if guard != 0 and is_link(channel):
            link = self.link_of(True, channel)
            self.may_ask(link)
            is_ready = self.noticed[link]
        elif guard != 0:
            stands = self.guard_of(channel)
            is_ready = stands == "sender"
        self.memory.touch_word(self.wptr, True)
        if link is not None:
            self.enabler[link] = None
        if stands == "own":
            self.memory.set_word(channel, NOT_PROCESS)
        self.answer(offset, is_ready)
        self.b = self.c

    def do_diss(self):
        self.memory.touch_word(self.wptr, True)
        self.answer(self.a, self.b != 0)
        self.b = self.c

    def answer(self, offset, is_ready):
        """Selects a guard that is ready, if it is the first."""
        is_first = is_ready and self.memory.word(self.wptr) == NONE_SELECTED
        if is_first:
            self.memory.set_word(self.wptr, offset)
        self.a = int(is_first)

    def do_altend(self):
        self.jump(self.iptr + self.read(self.wptr))

    # What its links do to it.

    def notice(self, link):
        """A byte has come that no input asked for: the process that enabled the link is told."""
        self.noticed[link] = True
        process, self.enabler[link] = self.enabler[link], None
        if process is None:
            return
        state = workspace_of(process) - STATE
        if self.waiting.get(process) == ALTERNATIVE:
            self.memory.set_word(state, READY)
            self.release(process)
        elif self.may_be_told(process, state) and self.memory.word(state) == ENABLING:
            self.memory.set_word(state, READY)

    def may_be_told(self, process, state):
        """Tells whether the state of the alternative of a process that does not wait may be changed."""
        if self.is_queued(process):
            return True
        if process in self.waiting or not (
            self.current is not None and process == self.own() or self.is_interrupted(process)
        ):
            return False
        try:
            self.memory.touch_word(state, True)
        except Break:
            return False
        return True

    def output(self, link):
        """Returns the bytes of the message that pends there, or None."""
        offer = self.memory.outputs[link]
        return None if offer is None else self.memory.get(offer.buffer, offer.length)

    def finish_output(self, link):
        self.release(self.memory.outputs[link].process)
        self.memory.outputs[link] = None

    def awaits(self, link):
        """Returns how many bytes the input has that pends there, or None."""
        offer = self.memory.inputs[link]
        return None if offer is None else offer.length

    def has_room(self, link, place):
        """Tells whether the byte at this place of a message may be taken."""
        return True

    def receive(self, link, place, content):
        """Bytes of a message come, from a place on."""
        self.memory.set(self.memory.inputs[link].buffer + place, content)

    def finish_input(self, link):
        """The message of an input is there: returns it."""
        offer, self.memory.inputs[link] = self.memory.inputs[link], None
        self.release(offer.process)
        return self.memory.get(offer.buffer, offer.length)
