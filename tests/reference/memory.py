"""The memory of a node, and the touches of it (docs/MACHINE.md, sections 2 and 5)."""
import collections
import copy
import itertools

from words import FIRST, LOWEST, MODULUS

# A message that is offered or asked for: by which process, and its buffer.
Offer = collections.namedtuple("Offer", "process buffer length")


class Break(Exception):
    """A broken rule of use, by its name."""


def require(holds, name):
    """Breaks a rule that does not hold."""
    if not holds:
        raise Break(name)


class Memory:
    """The bytes of a node, and who may not touch them now."""

    def __init__(self, size):
        self.size, self.bytes = size, bytearray(size)
        # The workspaces of processes that are queued or wait, and the messages that pend at the links.
        self.saved, self.inputs, self.outputs = set(), [None] * 4, [None] * 4

    def copy(self):
        other = copy.copy(self)
        for name, value in vars(self).items():
            setattr(other, name, copy.copy(value))
        return other

    def get(self, address, length):
        return self.bytes[address - LOWEST : address - LOWEST + length]

    def set(self, address, content):
        self.bytes[address - LOWEST : address - LOWEST + len(content)] = content

    def word(self, address):
        return int.from_bytes(self.get(address % MODULUS, 4), "little")

    def set_word(self, address, value):
        self.set(address % MODULUS, (value % MODULUS).to_bytes(4, "little"))

    def copy_bytes(self, target, source, length):
        """Copies bytes as if all of them were read first."""
        self.set(target, self.get(source, length))

    def bound(self, start, length):
        """Checks that bytes lie in the memory and not in the closed area."""
        require(LOWEST <= start and start + length <= LOWEST + self.size, "BadAddress")
        require(start >= FIRST, "Reserved")

    def touch(self, start, length, writes, own=None):
        """Checks a touch of bytes; `own` is a workspace that is saved besides."""
        if length == 0:
            return
        self.bound(start, length)
        end = start + length
        for offer in self.inputs + self.outputs if writes else self.inputs:
            if offer and start < offer.buffer + offer.length and offer.buffer < end:
                raise Break("InTransit")
        for workspace in self.saved:
            if start < workspace and workspace - 12 < end:
                raise Break("SavedWord")
        require(own is None or not (start < own and own - 12 < end), "SavedWord")

    def touch_word(self, address, writes, own=None):
        """Checks a touch of a word."""
        require(address % 4 == 0, "Unaligned")
        self.touch(address % MODULUS, 4, writes, own)

    def may_leave(self, workspace):
        """The deschedule check."""
        for below in (12, 8, 4):
            self.touch_word(workspace - below, True)

    def dump(self):
        """Returns the lines that show the bytes, but for those that are hidden."""
        hidden = bytearray(self.size)
        for offer in filter(None, self.inputs):
            hidden[offer.buffer - LOWEST : offer.buffer - LOWEST + offer.length] = b"\1" * offer.length
        return rows_of(self.bytes, hidden, "--")


def rows_of(content, masked, sign):
    """Yields the line of each row of 16 bytes of a memory that has something to show: the address, and two hexadecimal
    digits a byte, or a sign where it is masked."""
    # Large blocks of zeros are passed over at once.
    blocks = [range(it, min(it + 4096, len(content)), 16) for it in range(0, len(content), 4096)
              if (content[it : it + 4096] + masked[it : it + 4096]).strip(b"\0")]
    for start in itertools.chain.from_iterable(blocks):
        row, mask = content[start : start + 16], masked[start : start + 16]
        if any(row) or any(mask):
            shown = [sign if is_masked else f"{byte:02x}" for byte, is_masked in zip(row, mask)]
            yield f"{LOWEST + start:08x}: {' '.join(shown)}"
