"""A host in memory: files, standard streams, and a list of call numbers that fail.

There are 261 slots. Slots 0 to 255 are the program's, 256 and 257 are the tool's input and output file, and 258, 259
and 260 are the tool's standard input, output and error. At the start slots 0, 1 and 2 lead to the same three streams.

Calls are numbered from 0. A call whose number is in the list fails and changes nothing else.
"""

TEXT_READ, TEXT_WRITE, BINARY_READ, BINARY_WRITE, BINARY_READ_WRITE = range(5)
INPUT, OUTPUT, ERRORS = "input", "output", "errors"


class Failed(Exception):
    """The call failed."""


class Absent(Failed):
    """The file to open for reading is missing."""


class Misused(Failed):
    """The slot is not open, or its mode or its place does not allow the call."""


class Slot:
    """An open stream or file, with its mode and its place."""

    def __init__(self, target, mode):
        self.target = target  # a stream, or the name of a file in bytes
        self.mode = mode
        self.place = 0

    def is_binary_file(self):
        """Only a file in a binary mode has a place that may be asked for or changed."""
        return isinstance(self.target, bytes) and self.mode >= BINARY_READ


class MemoryHost:
    """The host of a run."""

    def __init__(self, standard_input=b"", failing=(), files=None):
        self.input = standard_input
        self.failing = frozenset(failing)
        self.files = {name: bytearray(data) for name, data in (files or {}).items()}
        self.output = bytearray()
        self.errors = bytearray()
        self.calls = 0
        self.slots = {}
        for first in (0, 258):
            self.slots[first] = Slot(INPUT, TEXT_READ)
            self.slots[first + 1] = Slot(OUTPUT, TEXT_WRITE)
            self.slots[first + 2] = Slot(ERRORS, TEXT_WRITE)

    def count(self):
        """Counts a call, which fails where its number is in the list."""
        self.calls += 1
        if self.calls - 1 in self.failing:
            raise Failed()

    def slot(self, number):
        """The slot that a call uses, which has to be open."""
        if number not in self.slots:
            raise Misused()
        return self.slots[number]

    def open_file(self, number, name, mode):
        """Closes the slot first if it is open. For reading the name has to be there; other modes make or empty it."""
        self.count()
        self.slots.pop(number, None)
        if mode in (TEXT_READ, BINARY_READ):
            if name not in self.files:
                raise Absent()
        else:
            self.files[name] = bytearray()
        self.slots[number] = Slot(name, mode)

    def close_slot(self, number):
        """Closes an open slot."""
        self.count()
        self.slot(number)
        del self.slots[number]

    def read_slot(self, number, length):
        """The next bytes, at most as many as asked; fewer mean the end of input."""
        self.count()
        slot = self.slot(number)
        if slot.mode in (TEXT_WRITE, BINARY_WRITE):
            raise Misused()
        if slot.target == INPUT:
            data, self.input = self.input[:length], self.input[length:]
            return data
        data = bytes(self.files[slot.target][slot.place:slot.place + length])
        slot.place += len(data)
        return data

    def write_slot(self, number, data):
        """Replaces bytes at the place, extends the file, fills a gap with zeros; streams grow at their end."""
        self.count()
        slot = self.slot(number)
        if slot.mode in (TEXT_READ, BINARY_READ):
            raise Misused()
        if slot.target in (OUTPUT, ERRORS):
            (self.output if slot.target == OUTPUT else self.errors).extend(data)
        elif data:
            file = self.files[slot.target]
            file.extend(bytes(max(0, slot.place - len(file))))
            file[slot.place:slot.place + len(data)] = data
            slot.place += len(data)

    def seek_slot(self, number, to):
        """The new place is `to` where that is at least 0, else length + to + 1; it lies from 0 to the length."""
        self.count()
        slot = self.slot(number)
        if not slot.is_binary_file():
            raise Misused()
        length = len(self.files[slot.target])
        place = to if to >= 0 else length + to + 1
        if not 0 <= place <= length:
            raise Misused()
        slot.place = place

    def tell_slot(self, number):
        """The place of a file in a binary mode."""
        self.count()
        slot = self.slot(number)
        if not slot.is_binary_file():
            raise Misused()
        return slot.place
