"""One statement: what it places, what it refers to, its label, and how it changes the place, the prefix and GREGs.

What is known when a statement is met follows from the statements before it, because IS, LOC, GREG, LOCAL and the counts
of bytes take known values alone. The values of labels that come later are filled in by the assembler.
"""
from dataclasses import dataclass, field
from typing import NamedTuple, Optional

from . import opcodes
from .expressions import LIMIT, Value, pure, read_operands, value_of
from .faults import Fault

STACK_SEGMENT = 0x6 << 60
NAME_LIMIT = 1024
SIZES = {"BYTE": 1, "WYDE": 2, "TETRA": 4, "OCTA": 8}
PLAIN_FIELDS = {"byte": 1 << 8, "wyde": 1 << 16, "tribyte": 1 << 24}


class Reference(NamedTuple):
    """A later label as a whole operand: an octa at an address, or a near or far relative address."""

    target: object  # a complete name, or the digit of a local label
    at: int
    kind: str  # "octa", "near" or "far"
    line: int
    statement: int


@dataclass
class Piece:
    """What a statement comes to. A reference has zero in its place."""

    line: int
    start: int = 0
    data: bytearray = field(default_factory=bytearray)
    references: list = field(default_factory=list)
    label: object = None  # a complete name, a digit, or None
    value: Optional[Value] = None


class Knowledge:
    """What is known before a statement: labels, the last local labels, the prefix, the place and the GREGs."""

    def __init__(self):
        self.labels = {}
        self.last_locals = {}
        self.prefix = b":"
        self.place = 0
        self.gregs = {}
        self.locals_asked = []

    def complete(self, name):
        """A name that begins with a colon is complete; any other has the prefix before it. 33 above 1,024 bytes."""
        complete = name if name[:1] == b":" else self.prefix + name
        if len(complete) > NAME_LIMIT:
            raise Fault(33)
        return complete

    def symbol(self, name):
        """The value of a symbol that is predefined or defined by an earlier statement, or None."""
        complete = self.complete(name)
        if complete in opcodes.PREDEFINED:
            return pure(opcodes.PREDEFINED[complete])
        return self.labels.get(complete)

    def back(self, digit):
        """dB is the last dH of an earlier statement, and pure 0 before any."""
        return self.last_locals.get(digit, pure(0))

    def lowest_global(self):
        """The lowest register that GREG gave, or 255."""
        return min(self.gregs, default=255)


class Encoder:
    """Carries out one statement; `piece` is what it comes to."""

    def __init__(self, known, fields, number):
        self.known = known
        self.fields = fields
        self.number = number
        self.piece = Piece(fields.line)
        self.operation = None
        self.operands = None
        self.after = None  # the place after the statement, where it is not that after its bytes

    def encode(self):
        """Tries the statement in this order: an unknown opcode (39), a label at PREFIX or LOCAL (48), the spelling of
        the operands, the statement itself, and its label. Knowledge then is that after the statement.
        """
        self.operation = opcodes.find(self.fields.opcode)
        if self.operation is None:
            raise Fault(39)
        if self.fields.label is not None and self.operation[1:] in (("PREFIX",), ("LOCAL",)):
            raise Fault(48)
        self.operands = read_operands(self.fields.operands)
        self.align()
        self.piece.start = self.known.place
        self.piece.value = pure(self.known.place)
        if self.operation[0] == "pseudo":
            self.pseudo(self.operation[1])
        else:
            self.instruction()
        if self.piece.start + len(self.piece.data) > STACK_SEGMENT and self.piece.data:
            raise Fault(49)
        self.define_label()
        self.known.place = (self.piece.start + len(self.piece.data)) % LIMIT if self.after is None else self.after
        return self.piece

    def align(self):
        """WYDE, TETRA, OCTA and instructions raise the place to a multiple of 2, 4, 8 and 4, modulo 2^64, first."""
        size = SIZES.get(self.operation[1], 1) if self.operation[0] == "pseudo" else 4
        self.known.place = -(-self.known.place // size) * size % LIMIT

    def define_label(self):
        """The label gets its value: a name that is too long is 33, a predefined one 31, one defined before 30."""
        label = self.fields.label
        if label is None:
            return
        if 48 <= label[0] <= 57:
            self.piece.label = label[0] - 48
            self.known.last_locals[self.piece.label] = self.piece.value
            return
        complete = self.known.complete(label)
        if complete in opcodes.PREDEFINED:
            raise Fault(31)
        if complete in self.known.labels:
            raise Fault(30)
        self.piece.label = complete
        self.known.labels[complete] = self.piece.value

    # values of operands

    def value(self, place):
        """The value of an operand, with all of its names known."""
        return value_of(self.operands[place], self.known)

    def pure_value(self, place):
        """The value of an operand that has to be pure (else 42)."""
        value = self.value(place)
        if value.is_register:
            raise Fault(42)
        return value.number

    def refers(self, place, at, kind):
        """Notes a reference where the operand is a name that is not known or a later local label, and answers whether it is.

        Parentheses round it make no difference.
        """
        operand = self.operands[place]
        if len(operand) != 1 or operand[0][0] not in ("name", "ahead"):
            return False
        target = operand[0][1]
        if operand[0][0] == "name":
            if self.known.symbol(target) is not None:
                return False
            target = self.known.complete(target)
        self.piece.references.append(Reference(target, at, kind, self.piece.line, self.number))
        return True

    # pseudo-operations

    def pseudo(self, name):
        """The pseudo-operations; all but data take one operand (else 40)."""
        if name in SIZES:
            self.place_data(SIZES[name])
            return
        if len(self.operands) != 1:
            raise Fault(40)
        {"IS": self.name_value, "LOC": self.locate, "PREFIX": self.change_prefix, "GREG": self.give_register,
         "LOCAL": self.ask_local}[name]()

    def name_value(self):
        """IS: the label gets the value of the operand."""
        self.piece.value = self.value(0)

    def locate(self):
        """LOC: the place becomes the pure operand; the label gets the place before."""
        self.after = self.pure_value(0)

    def change_prefix(self):
        """PREFIX: the operand is one symbol (else 40), and its complete form becomes the prefix."""
        operand = self.operands[0]
        if len(operand) != 1 or operand[0][0] != "name":
            raise Fault(40)
        self.known.prefix = self.known.complete(operand[0][1])

    def give_register(self):
        """GREG: a nonzero value that an earlier GREG has gives its register; else the next one downwards from $254.

        $32 is the lowest that is given; one more is fault 47. The label gets the register.
        """
        value = self.pure_value(0)
        known = [number for number, it in self.known.gregs.items() if it == value != 0]
        number = known[0] if known else self.known.lowest_global() - 1
        if number < 32:
            raise Fault(47)
        self.known.gregs[number] = value
        self.piece.value = Value(True, number)

    def ask_local(self):
        """LOCAL: asks that a register (else 41) stays below the final G."""
        value = self.value(0)
        if not value.is_register:
            raise Fault(41)
        self.known.locals_asked.append(value.number)

    def place_data(self, size):
        """Data: each pure operand in as many bytes; it fits below 256^s and from 2^64 - 256^s/2 on (else 43).

        In OCTA a name that is not known, or a local label ahead, may be the whole operand.
        """
        limit = 256 ** size
        for place in range(len(self.operands)):
            value = 0
            at = self.piece.start + size * place
            if not (size == 8 and self.refers(place, at, "octa")):
                value = self.pure_value(place)
            if limit <= value < LIMIT - limit // 2:
                raise Fault(43)
            self.piece.data += (value % limit).to_bytes(size, "big")

    # instructions

    def instruction(self):
        """An instruction by its form: the number of operands is one of its shape's (else 40).

        LDA is ADDU with the operands of a memory instruction. SET with a register is ORI with 0, and else SETL.
        """
        if self.operation[0] == "SET":
            self.set_register()
            return
        code, shape = (0x22, "memory") if self.operation[0] == "LDA" else (
            self.operation[1], opcodes.SHAPE_OF[self.operation[1]])
        for form in opcodes.FORMS[shape]:
            if len(form) == len(self.operands):
                self.place_tetra(self.filled(code, form))
                return
        raise Fault(40)

    def set_register(self):
        """SET $X,$Y or SET $X,n with n of 16 bits."""
        if len(self.operands) != 2:
            raise Fault(40)
        left = self.field(0, "register")
        value = self.value(1)
        if value.is_register:
            self.place_tetra(0xC1 << 24 | left << 16 | value.number << 8)
        else:
            self.place_tetra(0xE3 << 24 | left << 16 | self.fitting(value.number, 1 << 16))

    def place_tetra(self, tetra):
        """The four bytes of an instruction."""
        self.piece.data += tetra.to_bytes(4, "big")

    def fitting(self, number, limit):
        """A pure value that has to be below a limit (else 43)."""
        if number >= limit:
            raise Fault(43)
        return number

    def field(self, place, kind):
        """The number of an operand that is a register (else 41), or pure and below the limit of its kind (else 42, 43).
        """
        value = self.value(place)
        if kind == "register" and not value.is_register:
            raise Fault(41)
        if kind in PLAIN_FIELDS and value.is_register:
            raise Fault(42)
        return value.number if value.is_register else self.fitting(value.number, PLAIN_FIELDS.get(kind, 256))

    def filled(self, code, form):
        """The tetra of an instruction. Operands are tried from the left, then the reach of an address or a base."""
        tetra, last = code << 24, None
        for place, (kind, part) in enumerate(it.split() for it in form):
            if kind in ("near", "far"):
                if not self.refers(place, self.piece.start, kind):
                    last = (kind, self.pure_value(place))
            elif kind == "base":
                value = self.value(place)
                if value.is_register:
                    tetra += (1 << 24) + (value.number << 8)
                else:
                    last = (kind, value.number)
            else:
                number = self.field(place, kind)
                tetra += number << {"X": 16, "Y": 8}.get(part, 0)
                if kind == "either" and not self.value(place).is_register:
                    tetra += 1 << 24
        if last is None:
            return tetra
        return tetra + (self.based(last[1]) if last[0] == "base" else relative(last[1], self.piece.start, last[0]))

    def based(self, address):
        """The immediate form with the nonzero GREG that is the least distance below an address modulo 2^64.

        The distance is below 256 (else 44).
        """
        near = [((address - value) % LIMIT, number) for number, value in self.known.gregs.items() if value]
        distance, number = min(near, default=(LIMIT, 0))
        if distance > 255:
            raise Fault(44)
        return (1 << 24) + (number << 8) + distance


def relative(target, place, kind, faults=(46, 45)):
    """What a relative address adds to an instruction: (target - place)/4 over whole numbers.

    It has to be exact, at least -65536 and at most 65535, and for a far one at least -2^24 and at most 2^24 - 1. A
    backward one adds 1 to the opcode and 2^16 or 2^24 to the distance.
    """
    width = 1 << (24 if kind == "far" else 16)
    if (target - place) % 4:
        raise Fault(faults[0])
    distance = (target - place) // 4
    if not -width <= distance < width:
        raise Fault(faults[1])
    return distance if distance >= 0 else (1 << 24) + distance + width
