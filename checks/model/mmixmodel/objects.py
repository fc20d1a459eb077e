"""Objects in the mmo format: the writer, the reader and the loader.

An object is a sequence of tetras. A tetra whose first byte is #98 is a lopcode, followed by the code and the bytes Y
and Z; YZ is 256Y + Z. Any other tetra is loaded. Lambda is the place where tetras are loaded; it and the line in force
start at 0.
"""
from typing import NamedTuple

from .expressions import LIMIT
from .faults import Fault
from .memory import Memory, PagesFull
from .trie import read_trie

QUOTE, LOC, SKIP, FIXO, FIXR, FIXRX, FILE, LINE, SPEC, PRE, POST, STAB, END = range(13)
MARK = 0x98
STACK_SEGMENT = 0x6 << 60
OBJECT_LIMIT = 1 << 26


class Image(NamedTuple):
    """What a machine starts from: memory, G, and the values of $G to $255, the last of which is Main."""

    memory: Memory
    g: int
    values: list


class ObjectWriter:
    """Writes objects as the assembler makes them."""

    def __init__(self):
        self.data = bytearray()
        self.place_now = 0
        self.line = 0

    def tetra(self, tetra):
        """Appends one tetra."""
        self.data += tetra.to_bytes(4, "big")

    def lopcode(self, code, y_and_z):
        """Appends a lopcode."""
        self.tetra(MARK << 24 | code << 16 | y_and_z)

    def address(self, code, address):
        """Appends loc or fixo: the short form, with the top byte as Y, where the low 24 bits of the high tetra are 0.
        """
        if address >> 32 & 0xFFFFFF:
            self.lopcode(code, 2)
            self.tetra(address >> 32)
        else:
            self.lopcode(code, (address >> 56) << 8 | 1)
        self.tetra(address & 0xFFFFFFFF)

    def begin(self):
        """`pre` with time 0, and `file` 0 with the name .mms."""
        for tetra in (0x98090101, 0, 0x98060001, 0x2E6D6D73):
            self.tetra(tetra)

    def move_to(self, address):
        """`loc`, where lambda is not that address."""
        if self.place_now != address:
            self.address(LOC, address)
            self.place_now = address

    def fix(self, kind, at):
        """A fix record for a reference at an address, with lambda at its target."""
        distance = (self.place_now - at) // 4
        if kind == "octa":
            self.address(FIXO, at)
        elif 0 <= distance < 65536:
            self.lopcode(FIXR, distance)
        else:
            width = 24 if kind == "far" else 16
            self.lopcode(FIXRX, width)
            self.tetra(distance if distance >= 0 else (1 << 24) + distance + (1 << width))

    def place(self, line, rows):
        """Tetras at ascending addresses, which one statement places; its line is 0 where it is above 65,535.

        `loc` comes where lambda is not in the first tetra, and `line` where the line in force is another. A tetra that
        begins with #98 is quoted. After each the line in force grows by 1, unless it is 0.
        """
        if not rows:
            return
        line = line if line <= 65535 else 0
        if self.place_now // 4 * 4 != rows[0][0]:
            self.move_to(rows[0][0])
        if self.line != line:
            self.lopcode(LINE, line)
            self.line = line
        for address, tetra in rows:
            if tetra >> 24 == MARK:
                self.lopcode(QUOTE, 1)
            self.tetra(tetra)
            self.place_now = (address + 4) % LIMIT
            self.line += self.line != 0

    def end(self, g, values, trie):
        """`post`, `stab`, the trie and `end`."""
        self.lopcode(POST, g)
        for value in values:
            self.tetra(value >> 32)
            self.tetra(value & 0xFFFFFFFF)
        self.lopcode(STAB, 0)
        self.data += trie
        self.lopcode(END, len(trie) // 4)


class Item(NamedTuple):
    """One item: the byte place of its first tetra, its code, YZ, and the tetras that follow.

    A tetra to load, quoted or not, has the code of quote.
    """

    place: int
    code: int
    y_and_z: int
    tetras: list


class Reader:
    """Cuts an object into items. Each fault carries its byte place."""

    def __init__(self, data):
        self.data = data
        self.count = len(data) // 4
        self.at = 0  # in tetras
        self.trie_start = None

    def tetra(self, at):
        """The tetra of a number."""
        return int.from_bytes(self.data[4 * at:4 * at + 4], "big")

    def cut_short(self):
        """The object ends within an item or before `stab`: 60 where 1 to 3 bytes are left over, else 64."""
        if len(self.data) % 4:
            return Fault(60, 4 * self.count)
        return Fault(64, len(self.data))

    def take(self, count):
        """The next tetras of an item."""
        if self.at + count > self.count:
            raise self.cut_short()
        self.at += count
        return [self.tetra(it) for it in range(self.at - count, self.at)]

    def items(self):
        """The items up to and with `stab`, each as soon as it is whole.

        The first tetra is `pre` with Y = 1 (else 61). A code above #0c is 62, and so are a second `pre`, anything but
        `stab` after `post`, and `stab` or `end` before. Then 63 is for fields.
        """
        before = None
        while before != STAB:
            place = 4 * self.at
            tetra, = self.take(1)
            is_mark = tetra >> 24 == MARK
            code = tetra >> 16 & 255 if is_mark else QUOTE
            if before is None and not (is_mark and tetra >> 8 & 0xFFFF == PRE << 8 | 1):
                raise Fault(61, place)
            is_due = code == STAB and is_mark if before == POST else code < STAB
            if code > END or not is_due or (code == PRE and before is not None):
                raise Fault(62, place)
            yield self.item(place, code, tetra) if is_mark else Item(place, QUOTE, 1, [tetra])
            before = code

    def item(self, place, code, tetra):
        """The item that a lopcode begins. Its fields are 63 at the lopcode where they break the format."""
        y_and_z, y, z = tetra & 0xFFFF, tetra >> 8 & 255, tetra & 255
        wrong = {QUOTE: y_and_z != 1, LOC: z not in (1, 2), FIXO: z not in (1, 2), FIXRX: y_and_z not in (16, 24),
                 PRE: y != 1, POST: y != 0 or z < 32, STAB: y_and_z != 0}
        if wrong.get(code):
            raise Fault(63, place)
        length = {QUOTE: 1, LOC: z, FIXO: z, FIXRX: 1, FILE: z, PRE: z, POST: 2 * (256 - z)}.get(code, 0)
        tetras = self.skipped() if code == SPEC else self.take(length)
        if code == FIXRX and tetras[0] >> 25 or code == FILE and z and not any(tetras):
            raise Fault(63, place)
        if code == STAB:
            self.trie_start = 4 * self.at
        return Item(place, code, y_and_z, tetras)

    def skipped(self):
        """The tetras of `spec`: up to the next lopcode other than a quote with YZ = 1, which goes with its tetra."""
        start = self.at
        while True:
            tetra, = self.take(1)
            if tetra == 0x98000001:
                self.take(1)
            elif tetra >> 24 == MARK:
                self.at -= 1
                return [self.tetra(it) for it in range(start, self.at)]

    def end(self):
        """After `stab` comes the trie, up to the last tetra, which is `end` with the number of its tetras."""
        if len(self.data) % 4:
            raise Fault(60, 4 * self.count)
        last = self.tetra(self.count - 1)
        if 4 * self.count == self.trie_start or last >> 16 != MARK << 8 | END:
            raise Fault(64, len(self.data))
        if last & 0xFFFF != self.count - 1 - self.trie_start // 4:
            raise Fault(63, 4 * (self.count - 1))
        try:
            return read_trie(self.data[self.trie_start:-4])
        except Fault as fault:
            raise Fault(fault.number, self.trie_start + fault.place) from fault


class Loader:
    """What the items of an object mean. Lines are left out: no command shows them."""

    def __init__(self):
        self.memory = Memory()
        self.place = 0
        self.named = set()
        self.has_file = False
        self.g, self.values = None, None

    def take(self, item):
        """Carries out an item.

        A tetra at #6000000000000000 or above is 95, a page too many 90. `line` before any `file`, and a `file` without
        a name whose number was never named, are 96. Addresses are modulo 2^64.
        """
        tetras, y_and_z = item.tetras, item.y_and_z
        if item.code == QUOTE:
            self.join([(self.place, tetras[0])])
            self.place = (self.place // 4 * 4 + 4) % LIMIT
        elif item.code == LOC:
            self.place = address_of(item)
        elif item.code == SKIP:
            self.place = (self.place + y_and_z) % LIMIT
        elif item.code == FIXO:
            address = address_of(item)
            self.join([(address, self.place >> 32), (address + 4, self.place & 0xFFFFFFFF)])
        elif item.code == FIXR:
            self.join([(self.place - 4 * y_and_z, y_and_z)])
        elif item.code == FIXRX:
            back = tetras[0] % (1 << 24) - (1 << y_and_z) if tetras[0] >> 24 else tetras[0]
            self.join([(self.place - 4 * back, tetras[0])])
        elif item.code == FILE:
            self.select(y_and_z >> 8, bool(tetras))
        elif item.code == LINE and not self.has_file:
            raise Fault(96)
        elif item.code == POST:
            self.g = y_and_z
            self.values = [tetras[it] << 32 | tetras[it + 1] for it in range(0, len(tetras), 2)]

    def join(self, rows):
        """Joins tetras with those that hold the addresses; first no place may be bad, then the pages count."""
        rows = [(address % LIMIT // 4 * 4, tetra) for address, tetra in rows]
        if any(address >= STACK_SEGMENT for address, _ in rows):
            raise Fault(95)
        for address, tetra in rows:
            try:
                self.memory.join_tetra(address, tetra)
            except PagesFull:
                raise Fault(90) from None

    def select(self, number, is_named):
        """Selects a file, and notes that it has a name."""
        if is_named:
            self.named.add(number)
        elif number not in self.named:
            raise Fault(96)
        self.has_file = True


def address_of(item):
    """The address of loc and fixo: Y 2^56 plus the tetra or the octa that follows, modulo 2^64."""
    number = 0
    for tetra in item.tetras:
        number = number << 32 | tetra
    return ((item.y_and_z >> 8 << 56) + number) % LIMIT


def read_object(data):
    """The image of an object.

    The first fault counts: more than 2^26 bytes (65); then the items from the left, each with its own fault and then
    that of loading it; then bytes left over (60), a missing `end` (64), a wrong count in it (63), and the trie.
    """
    if len(data) > OBJECT_LIMIT:
        raise Fault(65, OBJECT_LIMIT)
    reader, loader = Reader(data), Loader()
    for item in reader.items():
        try:
            loader.take(item)
        except Fault as fault:
            raise Fault(fault.number, item.place) from fault
    reader.end()
    return Image(loader.memory, loader.g, loader.values)
