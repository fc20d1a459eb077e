"""The symbol trie of an object.

A node is: the byte m; the left subtrie if m has #40; one character if m and #2f is not 0, of two bytes, high byte
first, if m has #80; the value; the serial if there is a value; the middle subtrie if m has #20; the right subtrie if m
has #10.

The low four bits of m give the value: 0 none; 1 to 8 a pure value of that many bytes; 9 to 14 a pure value of 8 bytes
fewer, plus 2^61; 15 a register in one byte. The serial is in base 128 with the most significant digit first, and its
last byte has #80 added. The name of a symbol is the characters on the way from the root, where only a middle branch
adds its node's character, and its own character. A node without a character adds nothing. A two-byte character means
the UTF-8 form of its number.
"""
from .expressions import Value, pure
from .faults import Fault
from .encoding import NAME_LIMIT

DATA_SEGMENT = 1 << 61


def value_bytes(value):
    """The low four bits of m for a value, and its bytes: as few as possible, at least one."""
    if value.is_register:
        return 15, bytes([value.number])
    is_data = DATA_SEGMENT <= value.number < DATA_SEGMENT + (1 << 48)
    number = value.number - DATA_SEGMENT if is_data else value.number
    length = max(1, (number.bit_length() + 7) // 8)
    return length + (8 if is_data else 0), number.to_bytes(length, "big")


def serial_bytes(serial):
    """A serial in base 128, with #80 added to its last byte."""
    digits = [serial % 128 + 128]
    while serial >= 128:
        serial //= 128
        digits.insert(0, serial % 128)
    return bytes(digits)


def trie_of(symbols):
    """The trie of names in byte order, padded with zeros to whole tetras; no bytes for no symbols.

    Names that go on alike are grouped by their next byte. The groups are a chain of right subtries in ascending order,
    and there is no left subtrie.
    """
    # each task is bytes to write, or the rows of one subtrie with the number of bytes that they have in common
    output, tasks = bytearray(), [(symbols, 0)] if symbols else []
    while tasks:
        task = tasks.pop()
        if isinstance(task, bytes):
            output += task
            continue
        rows, depth = task
        first = rows[0][0][depth]
        group = [row for row in rows if row[0][depth] == first]
        others = rows[len(group):]
        own = [row for row in group if len(row[0]) == depth + 1]
        deeper = group[len(own):]
        low, tail = 0, b""
        if own:
            low, tail = value_bytes(own[0][1])
            tail += serial_bytes(own[0][2])
        output += bytes([low | (0x20 if deeper else 0) | (0x10 if others else 0), first]) + tail
        tasks += [(others, depth)] if others else []
        tasks += [(deeper, depth + 1)] if deeper else []
    return bytes(output + bytes(-len(output) % 4))


class TrieReader:
    """Reads a trie. A fault carries its byte place, and the first one met counts.

    The bytes end within the trie (70, at the end). A node with the mark of a two-byte character has no character, met
    at its byte m, or its character is below #80 or from #d800 to #dfff, met at the character (72). The characters on
    the way have more than 1,024 bytes, met at the character (74). A serial is 2^32 or more (76), or the name came
    before (73), both met at the end of the serial. These are at the byte m of their node. After the trie come four
    or more bytes, or one that is not zero (71, at the first byte after it).
    """

    def __init__(self, data):
        self.data = data
        self.at = 0
        self.symbols = []
        self.names = set()

    def byte(self):
        """The next byte."""
        if self.at >= len(self.data):
            raise Fault(70, len(self.data))
        self.at += 1
        return self.data[self.at - 1]

    def read(self):
        """All symbols, in the order of the trie; no bytes give none. A list of tasks takes the place of recursion."""
        if not self.data:
            return self.symbols
        tasks = [("node", b"")]
        while tasks:
            kind, front, *rest = tasks.pop()
            if kind == "node":
                start, m = self.at, self.byte()
                if m & 0x80 and not m & 0x2F:
                    raise Fault(72, start)
                tasks.append(("rest", front, start, m))
                if m & 0x40:
                    tasks.append(("node", front))
            else:
                name = self.rest_of_node(front, *rest)
                tasks += [("node", front)] if rest[1] & 0x10 else []
                tasks += [("node", name)] if rest[1] & 0x20 else []
        if len(self.data) - self.at >= 4 or any(self.data[self.at:]):
            raise Fault(71, self.at)
        return self.symbols

    def rest_of_node(self, front, start, m):
        """Reads a node's character, value and serial, and gives the front with its character."""
        if not m & 0x2F:
            return front
        if m & 0x80:
            number = 256 * self.byte() + self.byte()
            if number < 0x80 or 0xD800 <= number <= 0xDFFF:
                raise Fault(72, start)
            name = front + chr(number).encode()
        else:
            name = front + bytes([self.byte()])
        if len(name) > NAME_LIMIT:
            raise Fault(74, start)
        if m & 0x0F:
            self.read_symbol(name, start, m & 0x0F)
        return name

    def read_symbol(self, name, start, low):
        """Reads the value and the serial of a symbol."""
        length = 1 if low == 15 else low if low <= 8 else low - 8
        number = int.from_bytes(bytes(self.byte() for _ in range(length)), "big")
        value = Value(True, number) if low == 15 else pure(number + (DATA_SEGMENT if low > 8 else 0))
        serial, digit = 0, 0
        while digit < 128:
            digit = self.byte()
            serial = 128 * serial + digit % 128
        if serial >= 1 << 32:
            raise Fault(76, start)
        if name in self.names:
            raise Fault(73, start)
        self.names.add(name)
        self.symbols.append((name, value, serial))


def read_trie(data):
    """The symbols of a trie, as name, value and serial."""
    return TrieReader(data).read()
