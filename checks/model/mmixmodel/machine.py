"""The machine: one step of MMIX at a time.

A step is one instruction with its trip or its file trap. A stop names a reason and leaves the state before the
instruction. The reasons are tried in this order: 113 on the fetch; 110, 111, 112, 120; 113 on a data address; 114, 115,
116; 117; 118.

A state is wild where its step looks into Stack_Segment (from #6000000000000000 to below 2^63) otherwise than by PUSHJ,
POP, SAVE and UNSAVE of saved frames: it fetches there; or the instruction performed does not stop with 110, 111, 112 or
120, and gets rS, loads, stores or swaps there, is a file trap that reaches there, or is UNSAVE with an address in the
stack area whose octa is not below the mark. The mark is the number of hidden registers after the last SAVE or UNSAVE,
lowered by POP. A wild step that completes sets `touched`. A machine with a list of hidden registers ends at the first.
"""
from typing import NamedTuple, Optional

from .alu import DIVIDE, OVERFLOW, alu, truth
from .expressions import LIMIT, signed
from .faults import Stop, Wild
from .stack import STACK_LIMIT
from .state import (BASE, NEGATIVE, RA, RB, RBB, RD, RH, RJ, RM, RP, RR, RS, RW, RWW, RX, RXX, RY, RYY, RZ, RZZ, SAVED,
                    STACK_BYTES, State, is_in_segment)

HANDLERS = {DIVIDE: 16, OVERFLOW: 32}
LOADS = {0x80: (1, True), 0x82: (1, False), 0x84: (2, True), 0x86: (2, False), 0x88: (4, True), 0x8A: (4, False),
         0x8C: (8, False), 0x8E: (8, False), 0x92: (4, False), 0x96: (8, False)}
STORES = {0xA0: (1, True), 0xA2: (1, False), 0xA4: (2, True), 0xA6: (2, False), 0xA8: (4, True), 0xAA: (4, False),
          0xAC: (8, False), 0xAE: (8, False), 0xB2: (4, False), 0xB4: (8, False), 0xB6: (8, False)}
IDLE_ROWS = {0x9A, 0x9C, 0xB8, 0xBA, 0xBC}  # PRELD, PREGO, SYNCD, PREST, SYNCID


class Touch(NamedTuple):
    """Bytes that an instruction reads or writes."""

    at: int
    size: int


class Trace(NamedTuple):
    """What a completed step did. The destination is a register; a file trap has none and touches nothing."""

    pc: int
    word: int
    dest: Optional[int] = None
    reads: Optional[Touch] = None
    writes: Optional[Touch] = None
    next: int = 0
    is_trap: bool = False


class Work(NamedTuple):
    """An instruction to perform: its tetra, its address, and its operands y and z where RESUME
    gives them."""

    word: int
    at: int
    given: Optional[tuple] = None

    @property
    def code(self):
        """The code, the first byte."""
        return self.word >> 24

    @property
    def x(self):
        """The byte X."""
        return self.word >> 16 & 255

    @property
    def y(self):
        """The byte Y."""
        return self.word >> 8 & 255

    @property
    def z(self):
        """The byte Z."""
        return self.word & 255

    @property
    def following(self):
        """The address of the next instruction."""
        return (self.at + 4) % LIMIT


class Machine(State):
    """A machine and its step."""

    def step(self):
        """Makes one step and gives its trace; on a TRAP changes nothing and gives None. Stops are raised."""
        if self.pc >= NEGATIVE:
            raise Stop(113)
        wild = is_in_segment(self.pc)
        self.see_wild(wild)
        word = self.tetra(self.pc)
        if word >> 24 == 0:
            self.trap_word = word
            return None
        if word == 0xF9000000 and not self.special[RX] >> 63:
            trace, is_wild = self.inserted()
        else:
            trace, is_wild = self.perform(Work(word, self.pc))
        trace = trace._replace(pc=self.pc, word=word)
        self.touched |= wild or is_wild
        self.pc = trace.next
        self.steps += 1
        return trace

    def see_wild(self, is_wild):
        """A list ends at the first wild state."""
        if is_wild and self.kind == "list":
            raise Wild()
        return is_wild

    def inserted(self):
        """RESUME 0 with the top bit of rX clear performs an inserted instruction in the same step.

        The kind is the top byte of rX, w its low tetra, and p is 4 floor(rW/4) - 4 modulo 2^64. Kind 0 performs w as if
        it were at p. Kind 1 does so with rY and rZ as operands. Kind 2 writes rZ to the register X of w, and goes to
        p + 4; nothing stops it after the two reasons of RESUME itself, and it is never wild.
        """
        rx = self.special[RX]
        kind, word = rx >> 56, rx & 0xFFFFFFFF
        at = (self.special[RW] // 4 * 4 - 4) % LIMIT
        work = Work(word, at, (self.special[RY], self.special[RZ]) if kind == 1 else None)
        self.check_insertion(kind, work, rx)
        if kind == 2:
            self.stack.set(work.x, self.special[RZ])
            return Trace(0, 0, dest=work.x, next=work.following), False
        return self.perform(work)

    def check_insertion(self, kind, work, rx):
        """111: a kind above 2; the code of RESUME; kind 1 and a code whose first hexadecimal digit is 4, 5, 8, 9, A, B
        or F; kind 1 or 2 and an X with L <= X < G. Then 120: kind 0 or 1 and TRAP; kind 2 with bits 40 to 47 of rX
        not all 0.
        """
        if kind > 2 or work.code == 0xF9 or kind == 1 and work.code >> 4 in (4, 5, 8, 9, 0xA, 0xB, 0xF):
            raise Stop(111)
        if kind in (1, 2) and self.stack.l <= work.x < self.stack.g:
            raise Stop(111)
        if kind < 2 and work.code == 0 or kind == 2 and rx >> 40 & 255:
            raise Stop(120)

    def perform(self, work):
        """Performs an instruction that is no TRAP, and gives its trace and whether it was wild."""
        self.check_form(work)
        code, row = work.code, work.code & ~1
        if 0x18 <= code < 0x40 or code >= 0xC0 and code < 0xF0:
            return self.arithmetic(work)
        if 0x40 <= code < 0x60:
            is_taken = truth(code >> 1 & 7, self.stack.get(work.x))
            return Trace(0, 0, next=self.near(work) if is_taken else work.following), False
        if 0x60 <= code < 0x80:
            return self.conditional(work)
        if row in LOADS:
            return self.loaded(work, *LOADS[row])
        if row in STORES:
            return self.stored(work, *STORES[row])
        if row in IDLE_ROWS or code in (0xFC, 0xFD):
            return Trace(0, 0, next=work.following), False
        others = {0x94: self.swapped, 0x9E: self.gone, 0xBE: self.pushed, 0xF0: self.jumped, 0xF2: self.pushed,
                  0xF4: self.addressed, 0xF6: self.put_special}
        exact = {0xF8: self.popped, 0xF9: self.resumed, 0xFA: self.saved, 0xFB: self.unsaved, 0xFE: self.got,
                 0xFF: self.tripped}
        return (exact.get(code) or others[row])(work)

    def check_form(self, work):
        """The stops that the fields of an instruction decide.

        110: floating point. 111: GET with Y not 0 or Z above 31; PUT with Y not 0, X above 31 or an illegal code or
        value; SAVE with Y or Z not 0 or X < G; UNSAVE with X or Y not 0; RESUME with XYZ not 0; SYNC with XYZ above 7.
        112: PUT to 8 or 12 to 18; SYNC 4 to 7; LDVTS.
        """
        code, x, y, z = work.code, work.x, work.y, work.z
        if 1 <= code <= 0x17 or code in (0x90, 0x91, 0xB0, 0xB1):
            raise Stop(110)
        illegal = {
            0xFE: y or z > 31,
            0xFA: y or z or x < self.stack.g,
            0xFB: x or y,
            0xF9: work.word & 0xFFFFFF,
            0xFC: work.word & 0xFFFFFF > 7,
            0xF6: y or x > 31,
            0xF7: y or x > 31,
        }
        if illegal.get(code):
            raise Stop(111)
        if code in (0xF6, 0xF7):
            reason = self.put_reason(x, self.operand_z(work))
            if reason:
                raise Stop(reason)
        if code in (0x98, 0x99) or code == 0xFC and work.word & 0xFFFFFF >= 4:
            raise Stop(112)

    # operands, addresses and events

    def operand_y(self, work):
        """y: $Y, or what RESUME gives."""
        return work.given[0] if work.given else self.stack.get(work.y)

    def operand_z(self, work):
        """z: the byte Z in the second form, else $Z, or what RESUME gives."""
        if work.given:
            return work.given[1]
        return work.z if work.code & 1 else self.stack.get(work.z)

    def near(self, work):
        """The target of a relative address of 16 bits; the second code is the backward one."""
        distance = (work.word & 0xFFFF) - (0x10000 if work.code & 1 else 0)
        return (work.at + 4 * distance) % LIMIT

    def data_address(self, work, is_used=True):
        """A = y + z modulo 2^64; 113 where memory is used there and it is 2^63 or more."""
        address = (self.operand_y(work) + self.operand_z(work)) % LIMIT
        if is_used and address >= NEGATIVE:
            raise Stop(113)
        return address

    def check_stack(self, needed):
        """114 where hidden and local registers would pass 2^20."""
        if needed > STACK_LIMIT:
            raise Stop(114)

    def grow(self, x):
        """An instruction with a destination makes it local before it does anything else."""
        self.check_stack(self.stack.needed(x))
        if x < self.stack.g:
            self.stack.grow_to(x + 1)

    def check_event(self, event):
        """The handler of an event that trips, or None. 117 where the handler's tetra is 0.

        rA has the event bits; the enable bits are 8 places higher.
        """
        if not event or not self.special[RA] & event << 8:
            return None
        if self.tetra(HANDLERS[event]) == 0:
            raise Stop(117)
        return HANDLERS[event]

    def end_event(self, work, event, handler, y, z):
        """After the result was written: an event that is not enabled sets its bit; an enabled one trips. Gives the
        next address.
        """
        if not event:
            return work.following
        if handler is None:
            self.special[RA] |= event
            return work.following
        self.trip(work, y, z)
        return handler

    def trip(self, work, y, z):
        """rW is the next address, rX #8000000000000000 plus the instruction, rY and rZ the operands; rB is $255, and
        then $255 is rJ.
        """
        self.special[RW] = work.following
        self.special[RX] = NEGATIVE + work.word
        self.special[RY], self.special[RZ] = y, z
        self.special[RB] = self.stack.get(255)
        self.stack.set(255, self.special[RJ])

    # instructions

    def arithmetic(self, work):
        """Codes #18 to #3f and #c0 to #ef. NEG and NEGU have the byte Y as y; wydes have the old $X and YZ 2^k."""
        y, z = self.operand_y(work), self.operand_z(work)
        if 0x34 <= work.code <= 0x37:
            y = work.y
        elif work.code >= 0xE0 and not work.given:
            y, z = self.stack.get(work.x), (work.word & 0xFFFF) << 48 - 16 * (work.code & 3)
        answer = alu(work.code, y, z, self.special[RD], self.special[RM])
        self.check_stack(self.stack.needed(work.x))
        handler = self.check_event(answer.event)
        self.stack.set(work.x, answer.x)
        if answer.h is not None:
            self.special[RH] = answer.h
        if answer.r is not None:
            self.special[RR] = answer.r
        return Trace(0, 0, dest=work.x, next=self.end_event(work, answer.event, handler, y, z)), False

    def conditional(self, work):
        """CS: z where the condition holds of y, else the old $X. ZS: z, else 0."""
        value = self.stack.get(work.x) if work.code < 0x70 else 0
        if truth(work.code >> 1 & 7, self.operand_y(work)):
            value = self.operand_z(work)
        self.check_stack(self.stack.needed(work.x))
        self.stack.set(work.x, value)
        return Trace(0, 0, dest=work.x, next=work.following), False

    def loaded(self, work, size, is_signed):
        """Loads 1, 2, 4 or 8 bytes, with sign or without; LDHT puts its tetra in the high half."""
        address = self.data_address(work)
        wild = self.see_wild(is_in_segment(address))
        self.grow(work.x)
        value = self.load(address, size)
        if is_signed and value >> 8 * size - 1:
            value += LIMIT - (1 << 8 * size)
        if work.code & ~1 == 0x92:
            value <<= 32
        self.stack.set(work.x, value)
        return Trace(0, 0, dest=work.x, reads=Touch(address // size * size, size), next=work.following), wild

    def stored(self, work, size, is_signed):
        """Stores the low bytes of $X; overflow where the signed value does not fit, which is stored all the same.

        STHT stores the high tetra, STCO the byte X as an octa.
        """
        address = self.data_address(work)
        wild = self.see_wild(is_in_segment(address))
        datum = work.x if work.code & ~1 == 0xB4 else self.stack.get(work.x)
        half = 1 << 8 * size - 1
        event = OVERFLOW if is_signed and not -half <= signed(datum) < half else 0
        handler = self.check_event(event)
        if not self.has_room(address):
            raise Stop(118)
        self.store(address, size, datum >> 32 if work.code & ~1 == 0xB2 else datum)
        following = self.end_event(work, event, handler, address, datum)
        return Trace(0, 0, writes=Touch(address // size * size, size), next=following), wild

    def swapped(self, work):
        """CSWAP: where M8[A] = rP, M8[A] = x and then x = 1; else rP = M8[A] and x = 0."""
        address = self.data_address(work)
        wild = self.see_wild(is_in_segment(address))
        self.check_stack(self.stack.needed(work.x))
        if not self.has_room(address) and self.octa(address) == self.special[RP]:
            raise Stop(118)
        self.grow(work.x)
        touch = Touch(address // 8 * 8, 8)
        octa, does_write = self.octa(address), False
        if octa == self.special[RP]:
            does_write = True
            self.store(address, 8, self.stack.get(work.x))
        else:
            self.special[RP] = octa
        self.stack.set(work.x, int(does_write))
        trace = Trace(0, 0, dest=work.x, reads=touch, writes=touch if does_write else None, next=work.following)
        return trace, wild

    def gone(self, work):
        """GO: x is the next address, and execution goes on at A lowered to a multiple of 4."""
        address = self.data_address(work, False)
        self.check_stack(self.stack.needed(work.x))
        self.stack.set(work.x, work.following)
        return Trace(0, 0, dest=work.x, next=address // 4 * 4), False

    def pushed(self, work):
        """PUSHJ to a relative address, PUSHGO to A lowered to a multiple of 4; rJ is the address of the next
        instruction.
        """
        target = self.near(work) if work.code >= 0xF0 else self.data_address(work, False) // 4 * 4
        self.check_stack(self.stack.needed_by_push(work.x))
        self.stack.push(work.x)
        self.special[RJ] = work.following
        return Trace(0, 0, next=target), False

    def popped(self, work):
        """POP X,YZ goes to rJ + 4YZ, lowered to a multiple of 4."""
        self.stack.pop(work.x)
        self.mark = min(self.mark, self.stack.hidden_count())
        return Trace(0, 0, next=(self.special[RJ] + 4 * (work.word & 0xFFFF)) % LIMIT // 4 * 4), False

    def jumped(self, work):
        """JMP to a relative address of 24 bits."""
        distance = (work.word & 0xFFFFFF) - (0x1000000 if work.code & 1 else 0)
        return Trace(0, 0, next=(work.at + 4 * distance) % LIMIT), False

    def addressed(self, work):
        """GETA: x is the relative address."""
        self.check_stack(self.stack.needed(work.x))
        self.stack.set(work.x, self.near(work))
        return Trace(0, 0, dest=work.x, next=work.following), False

    def put_special(self, work):
        """PUT to the special register X."""
        self.put(work.x, self.operand_z(work))
        return Trace(0, 0, next=work.following), False

    def got(self, work):
        """GET of the special register Z; the destination is local first, so rL and rS are those after that."""
        wild = self.see_wild(work.z == RS)
        self.grow(work.x)
        self.stack.set(work.x, self.special_value(work.z))
        return Trace(0, 0, dest=work.x, next=work.following), wild

    def resumed(self, work):
        """RESUME 0 with the top bit of rX set goes to rW, lowered to a multiple of 4."""
        return Trace(0, 0, next=self.special[RW] // 4 * 4), False

    def tripped(self, work):
        """TRIP trips to the address 0, with rY = $Y and rZ = $Z."""
        if self.tetra(0) == 0:
            raise Stop(117)
        self.trip(work, self.stack.get(work.y), self.stack.get(work.z))
        return Trace(0, 0, next=0), False

    def saved(self, work):
        """SAVE: $X, which is global, becomes the address of the last octa of the frame."""
        self.check_stack(self.stack.needed_by_save())
        self.stack.save([self.special[code] for code in SAVED], self.stack.g << 56 | self.special[RA])
        self.mark = self.stack.hidden_count()
        self.stack.set(work.x, BASE + 8 * (self.mark - 1))
        return Trace(0, 0, next=work.following), False

    def unsaved(self, work):
        """UNSAVE reads a frame downwards from the octa that holds $Z; 116 where that is outside the stack area."""
        address = self.stack.get(work.z)
        if not BASE <= address < BASE + STACK_BYTES:
            raise Stop(116)
        index = address - BASE >> 3
        wild = self.see_wild(index >= self.mark)
        specials, self.special[RA] = self.stack.unsave(index)
        for code, value in zip(SAVED, specials):
            self.special[code] = value
        self.mark = self.stack.hidden_count()
        return Trace(0, 0, next=work.following), wild

    # file traps

    def end_trap(self, value):
        """Completes a file trap: rWW is the next address, rXX #8000000000000000 plus the instruction, rYY = $Y and
        rZZ = $Z before $255 changes, and rBB and $255 are the result. The instruction is what was fetched.
        """
        work = Work(self.trap_word, self.pc)
        special = self.special
        special[RWW], special[RXX] = work.following, NEGATIVE + work.word
        special[RYY], special[RZZ] = self.stack.get(work.y), self.stack.get(work.z)
        special[RBB] = value
        self.stack.set(255, value)
        self.pc = work.following
        self.steps += 1
        return Trace(work.at, work.word, next=work.following, is_trap=True)
