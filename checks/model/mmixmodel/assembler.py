"""Sources in two passes: every label is known before a byte is placed.

The first pass tries each statement with what is known before it. The second finds the label of each reference, and
tries the references that wait for each label. What remains is the refusal of a source, or its bytes, its registers, its
symbols and its object.
"""
from typing import NamedTuple, Optional

from .encoding import Encoder, Knowledge, relative
from .faults import Fault
from .lines import lines_of, statements
from .memory import PAGES, Memory
from .objects import Image, ObjectWriter
from .trie import trie_of

TRIE_LIMIT = 65535


class Refusal(NamedTuple):
    """The first fault of a source: its line and number, and the line of the reference that it is about, or 0."""

    line: int
    fault: int
    from_line: int = 0


class Assembly:
    """A source in two passes. `refusal` is None where it is accepted.

    `pieces` are what the statements before the faulty one come to, or all where none is faulty.
    """

    def __init__(self, source, with_pages=True):
        self.with_pages = with_pages
        self.last_line = max(1, len(lines_of(source)))
        self.known = Knowledge()
        self.pieces = []
        self.targets = {}
        self.refusal = self.first_pass(source)
        self.find_targets()
        self.refusal = self.second_pass() or self.refusal or self.unresolved() or self.whole_fault()

    def first_pass(self, source):
        """Tries the statements in their order up to the first faulty one."""
        found, ending = statements(source)
        for number, fields in enumerate(found):
            try:
                self.pieces.append(Encoder(self.known, fields, number).encode())
            except Fault as fault:
                return Refusal(fields.line, fault.number)
        return Refusal(*ending) if ending else None

    def find_targets(self):
        """The statement that each reference leads to.

        A name is defined once. dF is the next dH on a later statement than the reference's own.
        """
        following = {}
        for number in reversed(range(len(self.pieces))):
            piece = self.pieces[number]
            for reference in piece.references:
                if isinstance(reference.target, int):
                    self.targets[reference] = following.get(reference.target)
            if piece.label is not None:
                following[piece.label] = number
        for piece in self.pieces:
            for reference in piece.references:
                if not isinstance(reference.target, int):
                    self.targets[reference] = following.get(reference.target)

    def waiting(self):
        """The references that wait for the label of each statement, in the order of their making.

        One that is made after its label was met does not wait; no name is so, since it would be known.
        """
        waiting = {}
        for piece in self.pieces:
            for reference in piece.references:
                waiting.setdefault(self.targets[reference], []).append(reference)
        return waiting

    def second_pass(self):
        """The first fault of a label with its references, or of the pages touched so far.

        Each waiting reference is tried in turn: the label is a register (84), the distance of a relative address is no
        multiple of 4 (89), or it is out of reach (85). Last a statement is refused with 90 where the tetras so far
        touch more than 65,536 pages. The pieces after a fault are dropped.
        """
        waiting, pages = self.waiting(), set()
        for number, piece in enumerate(self.pieces):
            for reference in waiting.get(number, ()):
                fault = reference_fault(reference, piece.value)
                if fault:
                    del self.pieces[number:]
                    return Refusal(piece.line, fault, reference.line)
            pages |= {address >> 12 for address, _ in tetras(piece.start, piece.data)}
            if self.with_pages and len(pages) > PAGES:
                del self.pieces[number:]
                return Refusal(piece.line, 90)
        return None

    def unresolved(self):
        """The first reference to a name (80) or a local label (81) that no statement defines."""
        for piece in self.pieces:
            for reference in piece.references:
                if self.targets[reference] is None:
                    return Refusal(reference.line, 81 if isinstance(reference.target, int) else 80)
        return None

    def whole_fault(self):
        """At the last line: Main is not defined (82) or is a register (83), LOCAL named a register at or above the
        final G (87), or the trie has more than 65,535 tetras (86).
        """
        main = self.known.labels.get(b":Main")
        fault = None
        if main is None:
            fault = 82
        elif main.is_register:
            fault = 83
        elif any(number >= self.known.lowest_global() for number in self.known.locals_asked):
            fault = 87
        elif len(trie_of(self.symbols())) > 4 * TRIE_LIMIT:
            fault = 86
        return fault and Refusal(self.last_line, fault)

    def symbols(self):
        """The names in byte order, each with its value and its serial, which counts definitions from 1."""
        rows = [(name, value, serial) for serial, (name, value) in enumerate(self.known.labels.items(), 1)]
        return sorted(rows, key=lambda row: row[0])

    def filled(self, piece):
        """The bytes of a statement, each reference having its target's value."""
        data = bytearray(piece.data)
        for reference in piece.references:
            value = self.pieces[self.targets[reference]].value.number
            if reference.kind == "octa":
                place = reference.at - piece.start
                data[place:place + 8] = value.to_bytes(8, "big")
            else:
                tetra = int.from_bytes(data, "big") + relative(value, reference.at, reference.kind)
                data[:] = tetra.to_bytes(4, "big")
        return data

    def global_values(self):
        """The values of $G to $255: those of GREG, and Main."""
        lowest = self.known.lowest_global()
        return [self.known.gregs[number] for number in range(lowest, 255)] + [self.known.labels[b":Main"].number]

    def image(self):
        """What an accepted source means: each address has the exclusive or of all bytes placed there."""
        memory = Memory()
        for piece in self.pieces:
            for address, tetra in tetras(piece.start, self.filled(piece)):
                memory.join_tetra(address, tetra)
        return Image(memory, self.known.lowest_global(), self.global_values())

    def object(self):
        """The object of an accepted source, or what there is of it before the faulty statement.

        First come `pre` with time 0 and `file` 0 with the name .mms. For each statement follow: for a label that
        references wait for, `loc` where lambda is not the label, and a fix record for each; then its bytes. At the end
        come `post`, `stab`, the trie and `end`.
        """
        writer = ObjectWriter()
        writer.begin()
        waiting = self.waiting()
        for number, piece in enumerate(self.pieces):
            if number in waiting:
                writer.move_to(piece.value.number)
                for reference in waiting[number]:
                    writer.fix(reference.kind, reference.at)
            writer.place(piece.line, tetras(piece.start, piece.data))
        if self.refusal is None:
            writer.end(self.known.lowest_global(), self.global_values(), trie_of(self.symbols()))
        return bytes(writer.data)


def reference_fault(reference, value) -> Optional[int]:
    """The fault of a reference to a label with this value, or None."""
    if value.is_register:
        return 84
    if reference.kind != "octa":
        try:
            relative(value.number, reference.at, reference.kind, (89, 85))
        except Fault as fault:
            return fault.number
    return None


def tetras(start, data):
    """The tetras that cover bytes placed from an address on, each with its address; other bytes of them are 0."""
    front = start % 4
    padded = bytes(front) + bytes(data) + bytes(-(front + len(data)) % 4)
    if not data:
        return []
    return [(start - front + at, int.from_bytes(padded[at:at + 4], "big")) for at in range(0, len(padded), 4)]
