"""The instructions of one process (docs/MACHINE.md, section 4)."""
from memory import require
from words import LOWEST, MODULUS, fits, signed


def quotient(x, y):
    """Returns x by y, rounded toward zero."""
    whole = abs(x) // abs(y)
    return whole if (x < 0) == (y < 0) else -whole


def taken(value, c):
    """Returns the stack of an operation that takes two words and leaves one."""
    return value % MODULUS, c, c


def checked(number, c):
    """Returns the same, where a number that has no signed reading sets Error."""
    return taken(number, c), not fits(number)


def double(value, c):
    """Returns the stack with a number of 64 bits on it, the low word on top."""
    return value % MODULUS, value // MODULUS % MODULUS, c


def normalised(value):
    """Returns a number of 64 bits without its leading zeros, and how many these were."""
    zeros = 64 - value.bit_length()
    return double(value << zeros, zeros) if value else (0, 0, 64)


def divided(a, b, c):
    """Returns `ldiv`: C:B by A."""
    return ((0, 0, c), True) if c >= a else (((c * MODULUS + b) // a, (c * MODULUS + b) % a, c), False)


def remainder(a, b, c):
    """Returns `rem`: the remainder of B by A."""
    return (taken(0, c), True) if a == 0 else (taken(signed(b) - quotient(signed(b), signed(a)) * signed(a), c), False)


def moved(value, bits, width):
    """Returns a number that was moved left by `bits` bits, or right where they are below 0; far moves leave 0."""
    if abs(bits) >= width:
        return 0
    return value << bits if bits >= 0 else value >> -bits


def minus_borrow(a, b, c):
    """Returns the exact B - A - bit C."""
    return b - a - (c & 1)


# The operations on registers alone: each gives of A, B, C and the address after it the stack that it leaves, and
# whether it sets Error.
LOCAL = {
    "rev": lambda a, b, c, after: ((b, a, c), False),
    "bsub": lambda a, b, c, after: (taken(a + b, c), False),
    "diff": lambda a, b, c, after: (taken(b - a, c), False),
    "add": lambda a, b, c, after: checked(signed(b) + signed(a), c),
    "prod": lambda a, b, c, after: (taken(b * a, c), False),
    "gt": lambda a, b, c, after: (taken(int(signed(b) > signed(a)), c), False),
    "wsub": lambda a, b, c, after: (taken(a + 4 * b, c), False),
    "sub": lambda a, b, c, after: checked(signed(b) - signed(a), c),
    "seterr": lambda a, b, c, after: ((a, b, c), True),
    "csub0": lambda a, b, c, after: ((b, c, c), b >= a),
    "ladd": lambda a, b, c, after: checked(signed(b) + signed(a) + (c & 1), c),
    "norm": lambda a, b, c, after: (normalised(b * MODULUS + a), False),
    "ldiv": lambda a, b, c, after: divided(a, b, c),
    "ldpi": lambda a, b, c, after: (((after + a) % MODULUS, b, c), False),
    "xdble": lambda a, b, c, after: ((a, 0 if signed(a) >= 0 else MODULUS - 1, b), False),
    "rem": lambda a, b, c, after: remainder(a, b, c),
    "testpranal": lambda a, b, c, after: ((0, a, b), False),
    "div": lambda a, b, c, after: (
        (taken(0, c), True) if a == 0 else checked(quotient(signed(b), signed(a)), c)
    ),
    "lmul": lambda a, b, c, after: (double(b * a + c, c), False),
    "not": lambda a, b, c, after: ((MODULUS - 1 - a, b, c), False),
    "xor": lambda a, b, c, after: (taken(b ^ a, c), False),
    "bcnt": lambda a, b, c, after: ((4 * a % MODULUS, b, c), False),
    "lshr": lambda a, b, c, after: (double(moved(c * MODULUS + b, -a, 64), c), False),
    "lshl": lambda a, b, c, after: (double(moved(c * MODULUS + b, a, 64), c), False),
    "lsum": lambda a, b, c, after: (double(b + a + (c & 1), c), False),
    "lsub": lambda a, b, c, after: checked(minus_borrow(signed(a), signed(b), c), c),
    "xword": lambda a, b, c, after: (taken(b if b < a else b - 2 * a, c), False),
    "wcnt": lambda a, b, c, after: (((signed(a) >> 2) % MODULUS, a & 3, b), False),
    "shr": lambda a, b, c, after: (taken(moved(b, -a, 32), c), False),
    "shl": lambda a, b, c, after: (taken(moved(b, a, 32), c), False),
    "mint": lambda a, b, c, after: ((LOWEST, a, b), False),
    "and": lambda a, b, c, after: (taken(b & a, c), False),
    "or": lambda a, b, c, after: (taken(b | a, c), False),
    "csngl": lambda a, b, c, after: (taken(a, c), b != (0 if signed(a) >= 0 else MODULUS - 1)),
    "ccnt1": lambda a, b, c, after: ((b, c, c), b == 0 or b > a),
    "ldiff": lambda a, b, c, after: (
        (minus_borrow(a, b, c) % MODULUS, int(minus_borrow(a, b, c) < 0), c), False
    ),
    "sum": lambda a, b, c, after: (taken(b + a, c), False),
    "mul": lambda a, b, c, after: checked(signed(b) * signed(a), c),
    "cword": lambda a, b, c, after: ((b, c, c), signed(b) >= signed(a) or signed(b) < -signed(a)),
    "dup": lambda a, b, c, after: ((a, a, b), False),
}
# Other instructions that make one change, of a processor and an operand n.
SIMPLE = {
    "ldlp": lambda it, n: it.push(it.wptr + 4 * n),
    "ldnl": lambda it, n: it.replace(it.read(it.a + 4 * n)),
    "ldc": lambda it, n: it.push(n),
    "ldnlp": lambda it, n: it.replace(it.a + 4 * n),
    "ldl": lambda it, n: it.push(it.read(it.wptr + 4 * n)),
    "ajw": lambda it, n: it.move_workspace(it.wptr + 4 * n),
    "eqc": lambda it, n: it.replace(int(it.a == n)),
    "lb": lambda it, n: it.replace(it.read_byte(it.a)),
    "testhalterr": lambda it, n: it.push(int(it.halt_on_error)),
    "ldpri": lambda it, n: it.push(it.current),
}


class Instructions:
    """What the instructions of a process do to a processor; Iptr is after the instruction already."""

    def fail(self):
        """Sets Error, and halts where HaltOnError is set."""
        self.error = True
        self.is_halted = self.is_halted or self.halt_on_error

    def push(self, value):
        self.a, self.b, self.c = value % MODULUS, self.a, self.b

    def replace(self, value):
        self.a = value % MODULUS

    def pop(self, times=1):
        for _ in range(times):
            self.a, self.b = self.b, self.c

    def read(self, address):
        """Returns a word after its touch."""
        self.memory.touch_word(address, False)
        return self.memory.word(address)

    def read_byte(self, address):
        """Returns a byte after its touch."""
        self.memory.touch(address, 1, False)
        return self.memory.get(address, 1)[0]

    def write(self, address, value):
        """Changes a word after its touch."""
        self.memory.touch_word(address, True)
        self.memory.set_word(address, value)

    def jump(self, address):
        self.iptr = address % MODULUS

    def move_workspace(self, address):
        self.wptr = address % MODULUS

    def do_j(self, n):
        self.may_end_timeslice()
        self.jump(self.iptr + n)
        return True

    def do_adc(self, n):
        if not fits(signed(self.a) + signed(n)):
            self.fail()
        self.a = (self.a + n) % MODULUS

    def do_call(self, n):
        for below in (16, 12, 8, 4):
            self.memory.touch_word(self.wptr - below, True)
        for below, value in zip((16, 12, 8, 4), (self.iptr, self.a, self.b, self.c)):
            self.memory.set_word(self.wptr - below, value)
        self.a = self.iptr
        self.move_workspace(self.wptr - 16)
        self.jump(self.iptr + n)

    def do_cj(self, n):
        if self.a == 0:
            self.jump(self.iptr + n)
        else:
            self.pop()

    def do_stl(self, n):
        self.write(self.wptr + 4 * n, self.a)
        self.pop()

    def do_stnl(self, n):
        self.write(self.a + 4 * n, self.b)
        self.pop(2)

    def do_sb(self):
        self.memory.touch(self.a, 1, True)
        self.memory.set(self.a, bytes([self.b & 0xFF]))
        self.pop(2)

    def do_move(self):
        self.memory.touch(self.c, self.a, False)
        self.memory.touch(self.b, self.a, True)
        if self.a:
            self.memory.copy_bytes(self.b, self.c, self.a)
        self.pop(2)

    def do_gcall(self):
        self.a, self.iptr = self.iptr, self.a

    def do_ret(self):
        self.jump(self.read(self.wptr))
        self.move_workspace(self.wptr + 16)

    def do_gajw(self):
        require(self.a % 4 == 0, "Unaligned")
        self.a, self.wptr = self.wptr, self.a

    def do_lend(self):
        self.memory.touch_word(self.b + 4, True)
        self.memory.touch_word(self.b, True)
        count, index = (self.memory.word(self.b + 4) - 1) % MODULUS, self.memory.word(self.b)
        goes_round = signed(count) > 0
        if goes_round:
            self.may_end_timeslice()
            self.memory.set_word(self.b, index + 1)
            self.jump(self.iptr - self.a)
        self.memory.set_word(self.b + 4, count)
        self.pop(2)
        return goes_round

    def do_testerr(self):
        self.push(int(not self.error))
        self.error = False

    def do_clrhalterr(self):
        self.halt_on_error = False

    def do_sethalterr(self):
        self.halt_on_error = True
