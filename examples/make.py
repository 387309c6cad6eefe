#!/usr/bin/env python3
"""Makes boot images from listings of their bytes, and helps to write wirings and to read what temu prints.

    examples/make.py                              makes the image of every listing below examples/
    examples/make.py --check [PROGRAM]            tells which images differ from their listings, and where the
                                                  instructions that a listing names are not those that PROGRAM shows
    examples/make.py image LISTING IMAGE          makes one image
    examples/make.py names LISTING                prints the names of a listing, each after its address: a file of names
    examples/make.py jumps                        adds to what `temu dis --names` prints (standard input) the name that
                                                  each jump and call leads to
    examples/make.py words NODE ADDRESS [COUNT]   prints words of a node from what `temu run` prints (standard input),
                                                  and refuses those that lie outside its memory
    examples/make.py ring IMAGE..                 prints a wiring: link 1 of each node to link 2 of the next, round
    examples/make.py pipeline IMAGE..             the same, where the last node is not joined to the first
    examples/make.py grid WIDTH IMAGE..           links 0 to 3 are up, right, down, left; row by row

The wirings and `words` take --memory BYTES, by default 2048. A listing has one of these on a line:

    at 80000080               a segment begins at this address
    24 f2    mint    remark   its next bytes; after two blanks the instructions that they are, or `data`
    j loop    remark          instructions without bytes, which are made: the shortest ones
    loop:                     a name of the address that is reached
    process 80000101 80000080 a process: its descriptor, and the address or the name of its first instruction
    # remark

Instructions have `, ` between them. An operand is a number (`-4`, `#80000300`), a name, or a sum of such (`end-start`,
`loop+4`): for j, cj and call a name means the distance to it, for ldc its address. Bytes that are not the instructions
beside them are refused; each fault has the file and the line before it.
"""
import argparse
import collections
import json
import pathlib
import re
import struct
import subprocess
import sys

EXAMPLES = pathlib.Path(__file__).resolve().parent
FUNCTIONS = "j ldlp pfix ldnl ldc ldnlp nfix ldl adc call cj ajw eqc stl stnl opr".split()
PREFIX, NEGATIVE_PREFIX, OPERATE = 2, 6, 15
# The functions whose operand is the distance from the next instruction.
JUMPS = ("j", "cj", "call")
# The operations by their codes, in rows of sixteen; `-` where there is none.
OPERATIONS = dict(
    (name, code)
    for code, name in enumerate(
        """
        rev lb bsub endp diff add gcall in prod gt wsub out sub startp outbyte outword
        seterr - - csub0 - stopp ladd - - norm ldiv ldpi - xdble ldpri rem
        ret lend - - - - - - - testerr testpranal - div - - disc
        diss lmul not xor bcnt lshr lshl lsum lsub runp xword sb gajw - - wcnt
        shr shl mint alt altwt altend and - enbc enbs move or csngl ccnt1 - ldiff
        - - sum mul - stoperr cword clrhalterr sethalterr testhalterr dup
        """.split()
    )
    if name != "-"
)
OPERATION_NAMES = {code: name for name, code in OPERATIONS.items()}
# The first address of a memory, the first one that a program may use, and the bytes of the largest memory.
LOWEST, FIRST, LARGEST = 0x80000000, 0x80000048, 1 << 24
# What an image begins with.
MAGIC = b"TEMUIMG1"
# What a listing tells: segments and processes as pairs, addresses by name, and instructions as (address, text).
Listing = collections.namedtuple("Listing", "segments processes names instructions")
# The parts of a segment, each with the number of its line: a name, bytes with the instructions that are beside them,
# and an instruction whose bytes are made.
Name = collections.namedtuple("Name", "number name")
Given = collections.namedtuple("Given", "number code texts")
Made = collections.namedtuple("Made", "number function operand")


class Wrong(Exception):
    """What is wrong with an input."""


def image(segments, processes):
    """Returns the bytes of an image of segments (address, bytes) and processes (descriptor, first instruction)."""
    parts = [MAGIC, struct.pack("<II", len(segments), len(processes))]
    for address, code in segments:
        parts += [struct.pack("<II", address, len(code)), bytes(code)]
    parts += [struct.pack("<II", descriptor, start) for descriptor, start in processes]
    return b"".join(parts)


def address_of(word):
    """Returns the address that a word of eight hexadecimal digits is, which a program may use."""
    if not re.fullmatch(r"[0-9a-fA-F]{8}", word):
        raise Wrong(f"no address of eight hexadecimal digits: {word}")
    address = int(word, 16)
    if not FIRST <= address < LOWEST + LARGEST:
        raise Wrong(f"no address that a program may use, from {FIRST:08x} on: {word}")
    return address


def signed(number):
    """Returns the word that a number is modulo 2^32, read as a signed one."""
    return (number + (1 << 31)) % (1 << 32) - (1 << 31)


def chain(function, operand):
    """Returns the shortest bytes of a function with a signed operand."""
    if 0 <= operand < 16:
        return bytes([function << 4 | operand])
    above = chain(PREFIX, operand >> 4) if operand >= 16 else chain(NEGATIVE_PREFIX, ~operand >> 4)
    return above + bytes([function << 4 | operand & 15])


def decoded(code):
    """Returns the instructions that bytes are, as (offset, function, operand, offset after it)."""
    found, start, operand = [], 0, 0
    for at, byte in enumerate(code):
        function, operand = byte >> 4, operand + (byte & 15)
        if function == PREFIX:
            operand *= 16
        elif function == NEGATIVE_PREFIX:
            operand = 16 * ~operand
        else:
            found.append((start, function, signed(operand), at + 1))
            start, operand = at + 1, 0
    if start < len(code):
        raise Wrong(f"the bytes end within an instruction: {code[start:].hex(' ')}")
    return found


def text_of(function, operand):
    """Returns the text of an instruction, as `temu dis` shows it."""
    if function == OPERATE:
        return OPERATION_NAMES.get(operand, f"operation {operand}")
    return f"{FUNCTIONS[function]} {operand}"


def parts_of(text):
    """Returns the function of an instruction's text and its operand: a number where the text has one, else a text."""
    word, _, operand = text.partition(" ")
    if word in OPERATIONS and not operand:
        return OPERATE, OPERATIONS[word]
    if word not in FUNCTIONS or not operand or FUNCTIONS.index(word) in (PREFIX, NEGATIVE_PREFIX, OPERATE):
        raise Wrong(f"no instruction: {text}")
    return FUNCTIONS.index(word), operand


def operand_of(function, operand, after, names):
    """Returns the number that an operand is; `after` is the address of the next instruction."""
    if isinstance(operand, int):
        return operand
    total, addresses = 0, 0
    if not re.fullmatch(r"[+-]?[#\w]+([+-][#\w]+)*", operand):
        raise Wrong(f"no operand: {operand}")
    for sign, word in re.findall(r"([+-]?)([#\w]+)", operand):
        factor = -1 if sign == "-" else 1
        if word in names:
            total, addresses = total + factor * names[word], addresses + factor
        elif re.fullmatch(r"\d+|#[0-9a-fA-F]+", word):
            total += factor * (int(word[1:], 16) if word[0] == "#" else int(word))
        else:
            raise Wrong(f"no number and no name: {word}")
    if addresses and (addresses != 1 or FUNCTIONS[function] not in (*JUMPS, "ldc")):
        raise Wrong(f"only {', '.join(JUMPS)} and ldc take a name; else write two, as end-start")
    if not -(1 << 31) <= total < 1 << 32:
        raise Wrong(f"no operand of 32 bits: {operand}")
    return signed(total - after if addresses and FUNCTIONS[function] in JUMPS else total)


class Reader:
    """Reads a listing: first its lines, and then, with the address of each name, the bytes that they mean."""

    def __init__(self):
        # Segments are (address, parts), processes and faults have the number of their line before them.
        self.segments, self.processes, self.faults = [], [], []
        # The length of each instruction that is made, by its segment and its place there.
        self.names, self.lengths = {}, {}

    def try_to(self, number, call, *given):
        """Returns what a call for a line returns, or None where the line has a fault, which is kept."""
        try:
            return call(*given)
        except Wrong as fault:
            if (number, str(fault)) not in self.faults:
                self.faults.append((number, str(fault)))
            return None

    def read_line(self, number, line):
        """Reads a line that is neither empty nor a remark."""
        words = line.split()
        if words[0] in ("at", "process"):
            if len(words) != (2 if words[0] == "at" else 3):
                raise Wrong(f"`{words[0]}` takes {'one word' if words[0] == 'at' else 'two words'}")
            if words[0] == "at":
                self.segments.append((address_of(words[1]), []))
            else:
                self.processes.append((number, *words[1:]))
        elif not self.segments:
            raise Wrong("no segment has begun: its address comes first, as `at 80000080`")
        elif re.fullmatch(r"[A-Za-z_]\w*:", words[0]):
            if len(words) > 1:
                raise Wrong("a name has a line of its own")
            if words[0][:-1] in self.names:
                raise Wrong(f"the name {words[0][:-1]} is given twice")
            self.names[words[0][:-1]] = 0
            self.segments[-1][1].append(Name(number, words[0][:-1]))
        else:
            self.segments[-1][1].extend(parts_in(number, line))

    def places(self):
        """Yields each part with its address and, of an instruction that is made, the key of its length."""
        for segment, (address, parts) in enumerate(self.segments):
            for place, part in enumerate(parts):
                yield part, address, (segment, place)
                if isinstance(part, Given):
                    address += len(part.code)
                elif isinstance(part, Made):
                    address += self.lengths.setdefault((segment, place), 1)

    def settle(self):
        """Finds the address of each name: the instructions that are made grow until all are long enough."""
        grown = True
        while grown:
            grown = False
            self.names.update({part.name: address for part, address, _ in self.places() if isinstance(part, Name)})
            for part, address, key in self.places():
                if isinstance(part, Made):
                    needed = len(self.try_to(part.number, self.code_of, part, address, self.lengths[key]) or b"")
                    if needed > self.lengths[key]:
                        self.lengths[key], grown = needed, True

    def code_of(self, part, address, length):
        """Returns the bytes of an instruction at an address, if it has this length at least."""
        code = chain(part.function, operand_of(part.function, part.operand, address + length, self.names))
        return bytes([PREFIX << 4]) * (length - len(code)) + code

    def shortest(self, part, address):
        """Returns the shortest bytes of an instruction at an address."""
        codes = (self.code_of(part, address, length) for length in range(1, 9))
        return next(code for length, code in enumerate(codes, 1) if len(code) == length)

    def compare(self, part, address):
        """Returns the instructions (address, text) of bytes that are given, which have to be those beside them."""
        if not part.texts:
            return []
        found, told = decoded(part.code), []
        if len(found) != len(part.texts):
            texts = ", ".join(text_of(function, operand) for _, function, operand, _ in found)
            raise Wrong(f"the bytes are {texts}, and not {', '.join(part.texts)}")
        for text, (start, function, operand, after) in zip(part.texts, found):
            wanted = Made(part.number, *parts_of(text))
            number = operand_of(wanted.function, wanted.operand, address + after, self.names)
            if (function, operand) != (wanted.function, number):
                code, right = part.code[start:after], self.shortest(wanted, address + start)
                raise Wrong(f"{code.hex(' ')} is {text_of(function, operand)}, and {text} is {right.hex(' ')}")
            told.append((address + start, text_of(function, operand)))
        return told

    def process(self, descriptor, start):
        """Returns a process: its descriptor and the address of its first instruction."""
        if address_of(descriptor) & 2:
            raise Wrong(f"no workspace at a multiple of 4, with 1 added for low priority: {descriptor}")
        if start in self.names:
            return int(descriptor, 16), self.names[start]
        if not re.fullmatch(r"[0-9a-fA-F]{8}", start):
            raise Wrong(f"no name of the listing, and no address of eight hexadecimal digits: {start}")
        return int(descriptor, 16), address_of(start)

    def listing(self):
        """Returns what the lines tell."""
        self.settle()
        segments, instructions = [(address, bytearray()) for address, _ in self.segments], []
        for part, address, (segment, place) in self.places():
            if isinstance(part, Given):
                segments[segment][1].extend(part.code)
                instructions += self.try_to(part.number, self.compare, part, address) or []
            elif isinstance(part, Made):
                length = self.lengths[segment, place]
                code = self.try_to(part.number, self.code_of, part, address, length) or b""
                segments[segment][1].extend(code)
                instructions += [(address, text_of(*it[1:3])) for it in decoded(code)]
        processes = [self.try_to(number, self.process, *words) for number, *words in self.processes]
        return Listing(segments, processes, self.names, instructions)


def parts_in(number, line):
    """Returns the parts that a line of bytes or of instructions is."""
    first, *others = re.split(r"\s{2,}", line)
    if re.fullmatch(r"([0-9a-fA-F]{2} ?)+", first):
        texts = others[0].split(", ") if others and others[0] != "data" else []
        return [Given(number, bytes.fromhex(first), texts)]
    if re.match(r"[0-9a-fA-F]{2}( |$)", first):
        raise Wrong(f"no bytes with two blanks after them: {first}")
    return [Made(number, *parts_of(text)) for text in first.split(", ")]


def read_listing(file):
    """Returns what the file of a listing tells."""
    reader, lines = Reader(), file.read_text(encoding="utf-8").split("\n")
    for number, line in enumerate(lines, 1):
        if line.strip() and not line.strip().startswith("#"):
            reader.try_to(number, reader.read_line, number, line.strip())
    if not reader.processes:
        reader.faults.append((len(lines), "no process: a line as `process 80000101 80000080` is wanted"))
    listing = reader.listing()
    if reader.faults:
        raise Wrong("\n".join(f"{file}:{number}: {fault}" for number, fault in sorted(reader.faults)))
    return listing


def image_of(listing):
    """Returns the bytes of the image that a listing tells."""
    return image(listing.segments, listing.processes)


def table(name, **values):
    """Returns the text of a table of a wiring, such as [[node]], with these values by their keys."""
    told = (f"{key} = {json.dumps(value, ensure_ascii=False)}" for key, value in values.items())
    return "\n".join([f"[[{name}]]", *told])


def hold(end, kind, start, until):
    """Returns the table of a hold of the packets of a kind at an end, in some rounds."""
    return table("hold", end=end, kind=kind, **{"from": start}, until=until)


def wiring(images, wires, memory=2048):
    """Returns the text of a wiring: nodes of these images, and wires as pairs of ends (node, link)."""
    nodes = (table("node", memory=memory, image=str(it)) for it in images)
    return "\n\n".join(["version = 1", *nodes, *(table("wire", a=a, b=b) for a, b in wires)])


def pipeline(images, memory=2048):
    """Returns the wiring of nodes in a row: link 1 of each is joined to link 2 of the next."""
    return wiring(images, [((at, 1), (at + 1, 2)) for at in range(len(images) - 1)], memory)


def ring(images, memory=2048):
    """Returns the wiring of nodes in a ring: link 1 of each is joined to link 2 of the next, the last to the first."""
    return wiring(images, [((at, 1), ((at + 1) % len(images), 2)) for at in range(len(images))], memory)


def grid(images, width, memory=2048):
    """Returns the wiring of nodes in rows of this width: links 0 to 3 lead up, right, down and left."""
    right = [((at, 1), (at + 1, 3)) for at in range(len(images) - 1) if (at + 1) % width]
    down = [((at, 2), (at + width, 0)) for at in range(len(images) - width)]
    return wiring(images, right + down, memory)


def memories(output):
    """Returns for each node that temu printed its bytes by their address; None is a byte that is hidden."""
    nodes = []
    for line in output.split("\n"):
        row = re.fullmatch(r"([0-9a-f]{8}):((?: (?:[0-9a-f]{2}|--))+)", line)
        if re.match(r"node \d+ ", line):
            nodes.append({})
        elif row and nodes:
            for at, byte in enumerate(row[2].split()):
                nodes[-1][int(row[1], 16) + at] = None if byte == "--" else int(byte, 16)
    return nodes


def byte_told(byte):
    """Returns a byte as a dump shows it."""
    return "--" if byte is None else f"{byte:02x}"


def word_at(memory, address):
    """Returns the word at an address of a node's bytes, or None where a byte of it is hidden."""
    parts = [memory.get(address + at, 0) for at in range(4)]
    return None if None in parts else int.from_bytes(parts, "little")


def shown_words(output, node, address, count, memory):
    """Returns lines that tell words of a node: address, the word in hexadecimal and as a signed number."""
    nodes = memories(output)
    if not 0 <= node < len(nodes):
        raise Wrong(f"there is no node {node} in the input")
    # What is shown lies in the memory; of what is not shown only the size tells whether it is there.
    end = max([LOWEST + memory, *(it + 1 for it in nodes[node])])
    if not LOWEST <= address <= end - 4 * max(1, count):
        size = f"of {end - LOWEST} bytes; --memory tells that it has more"
        raise Wrong(f"{count} words from {address:08x} on do not lie in a memory {size}")
    lines = []
    for at in range(address, address + 4 * count, 4):
        word = word_at(nodes[node], at)
        told = "hidden" if word is None else f"{word:08x}  {word - (word >> 31 << 32)}"
        lines.append(f"{at:08x}: {told}")
    return lines


def with_targets(printed):
    """Returns the lines that `temu dis --names` printed, each jump and call with the name that it leads to."""
    lines = printed.splitlines()
    starts = [int(it[:8], 16) for it in lines if re.match(r"[0-9a-f]{8}: ", it)]
    if not starts:
        raise Wrong("the input is not what `temu dis` prints")
    # A name has a line of its own before its instruction.
    names = {after[:8]: line[:-1] for line, after in zip(lines, lines[1:]) if line[8:10] != ": "}
    nexts = dict(zip(starts, starts[1:]))
    return [with_target(it, names, nexts) for it in lines]


def with_target(line, names, nexts):
    """Returns a line with the name that its jump or call leads to; nexts are the starts of the next instructions."""
    jump = re.fullmatch(r"([0-9a-f]{8}): (?:j|cj|call) (-?\d+)", line)
    if not jump:
        return line
    start, operand = int(jump[1], 16), int(jump[2])
    # A longer spelling than the shortest is seen by where the next instruction begins.
    after = start + len(chain(0, operand))
    after = max(after, nexts.get(start, 0)) if nexts.get(start, 0) <= after + 15 else after
    name = names.get(f"{after + operand & 0xFFFFFFFF:08x}")
    return f"{line:<24} to {name}" if name else line


def differences(listing, lines):
    """Returns the instructions of a listing that are not those that `temu dis` showed."""
    found = {int(line[:8], 16): line[10:] for line in lines}
    return [f"{address:08x}: {text}" for address, text in listing.instructions if found.get(address) != text]


def faults_of(file, program):
    """Yields what is wrong with the image of an example's listing, or with what a program shows of it."""
    try:
        listing = read_listing(file)
    except Wrong as fault:
        yield str(fault)
        return
    made = file.with_suffix(".img")
    if not made.is_file() or made.read_bytes() != image_of(listing):
        yield f"{made.relative_to(EXAMPLES.parent)}: differs from its listing"
    elif program:
        printed = subprocess.run([program, "dis", made], stdout=subprocess.PIPE, check=True, text=True).stdout
        for it in differences(listing, printed.splitlines()):
            yield f"{file.relative_to(EXAMPLES.parent)}: the program does not show {it}"


def check(program):
    """Tells which images of the examples differ from their listings, and returns the status."""
    faults = [fault for file in listings() for fault in faults_of(file, program)]
    for stray in sorted(EXAMPLES.glob("*/*.img")):
        if not stray.with_suffix(".txt").is_file():
            faults.append(f"{stray.relative_to(EXAMPLES.parent)}: has no listing")
    for fault in faults:
        print(fault)
    return 1 if faults else 0


def listings():
    """Returns the files of the examples' listings."""
    return sorted(EXAMPLES.glob("*/*.txt"))


def make(listing, to):
    """Makes the image of a listing's file."""
    to.write_bytes(image_of(read_listing(listing)))
    return []


def make_all(_):
    """Makes the image of each example."""
    for file in listings():
        make(file, file.with_suffix(".img"))
    return []


def arguments():
    """Returns what the command line asks for: what `do` makes of it are the lines to print."""
    parser = argparse.ArgumentParser(description=__doc__, formatter_class=argparse.RawDescriptionHelpFormatter)
    parser.add_argument("--check", nargs="?", const="", metavar="PROGRAM")
    parser.set_defaults(do=make_all)
    commands = parser.add_subparsers(metavar="COMMAND")

    def command(name, do):
        made = commands.add_parser(name)
        made.set_defaults(do=do)
        return made

    one = command("image", lambda it: make(it.listing, it.image))
    one.add_argument("listing", type=pathlib.Path)
    one.add_argument("image", type=pathlib.Path)
    named = command("names", lambda it: [f"{at:08x} {name}" for name, at in read_listing(it.listing).names.items()])
    named.add_argument("listing", type=pathlib.Path)
    command("jumps", lambda _: with_targets(sys.stdin.read()))
    words = command("words", lambda it: shown_words(sys.stdin.read(), it.node, it.address, it.count, it.memory))
    words.add_argument("node", type=int)
    words.add_argument("address", type=lambda word: int(word, 16))
    words.add_argument("count", type=int, nargs="?", default=1)
    nets = {
        "ring": command("ring", lambda it: [ring(it.images, it.memory)]),
        "pipeline": command("pipeline", lambda it: [pipeline(it.images, it.memory)]),
        "grid": command("grid", lambda it: [grid(it.images, it.width, it.memory)]),
    }
    nets["grid"].add_argument("width", type=int)
    for it in nets.values():
        it.add_argument("images", nargs="+")
    for it in (words, *nets.values()):
        it.add_argument("--memory", type=int, default=2048)
    return parser.parse_args()


def main():
    given = arguments()
    try:
        if given.check is not None:
            return check(given.check)
        for line in given.do(given):
            print(line)
    except (Wrong, OSError, ValueError) as fault:
        for line in str(fault).split("\n"):
            print(f"make.py: {line}", file=sys.stderr)
        return 2
    return 0


if __name__ == "__main__":
    sys.exit(main())
