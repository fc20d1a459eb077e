"""The state of a machine: its start, and what reads and changes it.

Memory outside of the stack area is `memory`; the stack area is the 2^23 bytes from #6000000000000000, and its octas are
the stack's own.
"""
from .expressions import LIMIT
from .faults import Stop
from .memory import PagesFull
from .stack import STACK_LIMIT, stack_of

BASE = 0x6 << 60
STACK_BYTES = 1 << 23
NEGATIVE = 1 << 63
MAXIMUM = LIMIT - 1
(RB, RD, RE, RH, RJ, RM, RR, RBB, RC, RN, RO, RS, RI, RT, RTT, RK, RQ, RU, RV, RG, RL, RA, RF, RP, RW, RX, RY, RZ,
 RWW, RXX, RYY, RZZ) = range(32)
SAVED = (RB, RD, RE, RH, RJ, RM, RR, RP, RW, RX, RY, RZ)


def is_in_segment(address):
    """Whether an address is in Stack_Segment."""
    return BASE <= address < NEGATIVE


class State:
    """The state of a machine."""

    def __init__(self, image, arguments, kind="window", ring=256):
        """The start. $0 is the number of arguments and $1 the address of their pointers, $G to $254 come from the
        object, and $255 is Main. Execution starts at Main, lowered to a multiple of 4.
        """
        self.memory = image.memory
        self.kind = kind
        self.stack = stack_of(kind, ring)
        self.stack.g = image.g
        self.stack.globals = dict(zip(range(image.g, 256), image.values))
        self.special = [0] * 32
        self.special[RK] = MAXIMUM
        self.special[RT], self.special[RTT] = 0x80000005 << 32, 0x80000006 << 32
        self.special[RV], self.special[RN] = 0x369C2004 << 32, 0x01000000 << 32
        self.pc = image.values[-1] // 4 * 4
        self.steps = 0
        self.mark = 0
        self.touched = False
        self.trap_word = 0
        self.set_arguments(arguments)
        self.stack.set(0, len(arguments))
        self.stack.set(1, 0x4000000000000008)

    def set_arguments(self, arguments):
        """The pool: the first free address, then a pointer for each argument, a zero octa, and the texts, each with a
        zero byte and padded to octas. A page too many is stop 118 at Main.
        """
        texts, pointers = b"", []
        first = 0x4000000000000008 + 8 * (len(arguments) + 1)
        for text in arguments:
            pointers.append(first + len(texts))
            texts += text + bytes(8 - len(text) % 8)
        octas = [first + len(texts)] + pointers + [0]
        octas += [int.from_bytes(texts[at:at + 8], "big") for at in range(0, len(texts), 8)]
        try:
            for number, octa in enumerate(octas):
                self.memory.store_octa(0x4000000000000000 + 8 * number, octa)
        except PagesFull:
            raise Stop(118) from None

    # reading the state

    def special_value(self, code):
        """A special register. rC is the number of steps made before; rO is the end of the hidden registers."""
        if code == RC:
            return self.steps % LIMIT
        if code == RO:
            return BASE + 8 * self.stack.hidden_count()
        if code == RS:
            return BASE + 8 * self.stack.spilled()
        return {RG: self.stack.g, RL: self.stack.l}.get(code, self.special[code])

    def octa(self, address):
        """The octa that holds an address; in the stack area it is one of the stack's octas."""
        if BASE <= address < BASE + STACK_BYTES:
            return self.stack.stack_octa(address - BASE >> 3)
        return self.memory.octa(address)

    def tetra(self, address):
        """The tetra that holds an address."""
        return self.octa(address) >> (32 if address % 8 < 4 else 0) & 0xFFFFFFFF

    def has_room(self, address):
        """Whether a store at an address needs no page too many; the stack area lies in no page."""
        return BASE <= address < BASE + STACK_BYTES or self.memory.has_room(address)

    def store(self, address, size, value):
        """Stores the low bytes of a value at the multiple of their number at or below an address."""
        shift = 8 * (8 - size - address // size * size % 8)
        mask = (1 << 8 * size) - 1
        octa = self.octa(address) & ~(mask << shift) | (value & mask) << shift
        if BASE <= address < BASE + STACK_BYTES:
            self.stack.set_stack_octa(address - BASE >> 3, octa)
        else:
            self.memory.store_octa(address, octa)

    def load(self, address, size):
        """The bytes at the multiple of their number at or below an address."""
        shift = 8 * (8 - size - address // size * size % 8)
        return self.octa(address) >> shift & (1 << 8 * size) - 1

    # changing the state from outside

    def set_register(self, k, value):
        """Writes $k, and answers whether that was possible: the stack may not be overfilled."""
        if self.stack.needed(k) > STACK_LIMIT:
            return False
        self.stack.set(k, value)
        return True

    def put_reason(self, code, value):
        """Why PUT refuses: codes 9 to 11 are illegal, 8 and 12 to 18 privileged; rA takes at most #3ffff, and rG takes
        32 to 255 and not below L. None where it does not refuse.
        """
        if 9 <= code <= 11 or code == RA and value > 0x3FFFF:
            return 111
        if code == RG and not max(32, self.stack.l) <= value <= 255:
            return 111
        return 112 if code == 8 or 12 <= code <= 18 else None

    def put(self, code, value):
        """PUT. rL takes the smaller of its value and the new one."""
        if code == RL:
            self.stack.cut(min(value, self.stack.l))
        elif code == RG:
            self.stack.set_global_start(value)
        else:
            self.special[code] = value
