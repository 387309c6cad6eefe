"""Boot images (docs/MACHINE.md, section 15) and the bytes of instructions.

Images, listings and the tables of wirings are written, and instructions encoded and told, by examples/make.py, which
needs no other file, since it is for users; what the tests need besides is a reader of images.
"""
import pathlib
import struct
import sys

sys.path.append(str(pathlib.Path(__file__).resolve().parents[2] / "examples"))
# The codes and names of functions and operations, the shortest bytes of an instruction; addresses and words; images,
# listings, the tables of a wiring, and the memories of a dump.
from make import FUNCTIONS, NEGATIVE_PREFIX, OPERATE, OPERATION_NAMES, OPERATIONS, PREFIX, chain  # noqa: E402,F401
from make import FIRST, LOWEST, MAGIC, signed  # noqa: E402,F401
from make import hold, image, image_of, memories, read_listing, table, word_at  # noqa: E402,F401

SEGMENTS, PROCESSES = 4096, 512


class BadImage(Exception):
    """The fault of an image."""


def read_image(content):
    """Returns the segments (address, bytes) and the processes (descriptor, Iptr) of an image."""
    if content[:8] != MAGIC:
        raise BadImage("I1 BadMagic")
    counts = [int.from_bytes(content[at : at + 4], "little") for at in (8, 12) if len(content) >= at + 4]
    if any(count > most for count, most in zip(counts, (SEGMENTS, PROCESSES))):
        raise BadImage("I2 TooMany")
    if len(counts) < 2:
        raise BadImage("I3 Truncated")
    at, segments = 16, []
    for _ in range(counts[0]):
        start, length = pair_at(content, at)
        segments.append((start, content[at + 8 : at + 8 + length]))
        at += 8 + length
    processes = [pair_at(content, at + 8 * number) for number in range(counts[1])]
    end = at + 8 * counts[1]
    if end > len(content):
        raise BadImage("I3 Truncated")
    if end < len(content):
        raise BadImage("I4 Trailing")
    return segments, processes


def pair_at(content, at):
    """Returns the two words that are there."""
    if at + 8 > len(content):
        raise BadImage("I3 Truncated")
    return struct.unpack_from("<II", content, at)
