"""Words of 32 bits, and the addresses that mean something to the machine (docs/MACHINE.md, sections 2 and 6)."""
# MostNeg, the lowest address; the first that a program may use; and a word read as a signed number.
from images import FIRST, LOWEST, signed  # noqa: F401

MODULUS = 1 << 32
# The first address after the links' channels.
BEHIND_LINKS = LOWEST + 0x20
# What a channel word, the state of an alternative and its chosen offset hold where they hold no descriptor.
NOT_PROCESS, ENABLING, WAITING, READY, NONE_SELECTED = LOWEST, LOWEST + 1, LOWEST + 2, LOWEST + 3, MODULUS - 1
# How far below its workspace a process keeps its Iptr, the next process of its queue, and its buffer or its choice.
IPTR, NEXT, STATE = 4, 8, 12


def fits(number):
    """Tells whether a number has a signed reading."""
    return -LOWEST <= number < LOWEST


def workspace_of(descriptor):
    """Returns the workspace of a process."""
    return descriptor & ~1


def address(word):
    """Returns a word as an address is shown."""
    return f"#{word:08x}"
