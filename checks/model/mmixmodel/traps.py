"""File traps: TRAP 0,Y,Z calls the service Y on the slot Z.

b is $255; p = M8[b] and q = M8[b + 8] are arguments in memory. A text at an address is its bytes up to the first zero
byte. A trap is tried in this order: 124 for TRAP with X not 0, Y above 10, or Halt with Z not 0; 121 for the services
on wide characters; 113 where an argument octa has an address of 2^63 or more; for a text 113 at such a byte, or 122
where it has more than 2^24 bytes; 122 for a size above 2^24; 113 for a byte of a buffer; the host.
"""
from .expressions import LIMIT, signed
from .faults import Stop
from .hosts import BINARY_READ_WRITE, Failed
from .state import NEGATIVE, is_in_segment
from .memory import PagesFull

HALT, FOPEN, FCLOSE, FREAD, FGETS, FGETWS, FWRITE, FPUTS, FPUTWS, FSEEK, FTELL = range(11)
PIECE = 4096
TRANSFER_LIMIT = 1 << 24
MINUS_ONE = LIMIT - 1


class Halted(Exception):
    """The run ends; the status is the low byte of $255."""


class FileTrap:
    """One file trap of a machine over a host."""

    def __init__(self, machine, host):
        word = machine.trap_word
        self.machine, self.host = machine, host
        self.x, self.service, self.slot = word >> 16, word >> 8 & 255, word & 255
        self.b = machine.stack.get(255)
        self.is_wild = is_in_segment(machine.pc)

    def carry_out(self):
        """The trace of the step. A stop in it leaves the bytes that were moved and the host calls that were made."""
        if self.x or self.service > FTELL or self.service == HALT and self.slot:
            raise Stop(124)
        if self.service in (FGETWS, FPUTWS):
            raise Stop(121)
        services = {HALT: self.halt, FOPEN: self.open, FCLOSE: self.close, FREAD: self.read, FGETS: self.get_line,
                    FWRITE: self.write, FPUTS: self.put_text, FSEEK: self.seek, FTELL: self.tell}
        value = services[self.service]()
        self.machine.touched |= self.is_wild
        return self.machine.end_trap(value % LIMIT)

    def see(self, address):
        """An address that the trap looks at, or may: 113 where it is 2^63 or more; wild in Stack_Segment."""
        if address >= NEGATIVE:
            raise Stop(113)
        self.is_wild |= self.machine.see_wild(is_in_segment(address))
        return address

    def arguments(self):
        """The two argument octas. Where the first is wild, the trap is, whatever the second is."""
        first = self.see(self.b)
        second = self.see((self.b + 8) % LIMIT)
        return self.machine.octa(first), self.machine.octa(second)

    def text(self, address):
        """The text at an address, read from its start no further than the byte that decides."""
        text = bytearray()
        while True:
            byte = self.machine.load(self.see((address + len(text)) % LIMIT), 1)
            if byte == 0:
                return bytes(text)
            if len(text) == TRANSFER_LIMIT:
                raise Stop(122)
            text.append(byte)

    def buffer(self):
        """The address and the size of a buffer of q bytes, each of which has to have an address below 2^63."""
        address, size = self.arguments()
        if size > TRANSFER_LIMIT:
            raise Stop(122)
        if size:
            if address >= NEGATIVE or address + size > NEGATIVE:
                raise Stop(113)
            touches = address < NEGATIVE and address + size > 0x6 << 60
            self.is_wild |= self.machine.see_wild(touches)
        return address, size

    def put_bytes(self, address, data):
        """Stores bytes one by one; a page too many is 123, and the bytes before it stay."""
        for number, byte in enumerate(data):
            try:
                self.machine.store(address + number, 1, byte)
            except PagesFull:
                self.machine.touched |= self.is_wild
                raise Stop(123) from None

    def answer(self, call, *arguments):
        """0 after a host call, and -1 after a failed or misused one."""
        try:
            call(*arguments)
        except Failed:
            return MINUS_ONE
        return 0

    def halt(self):
        """Halt ends the run. It changes nothing but the count of steps."""
        self.machine.touched |= self.is_wild
        self.machine.steps += 1
        raise Halted()

    def open(self):
        """Fopen: name p, mode q. A mode above 4 is -1 without a host call."""
        name, mode = self.arguments()
        text = self.text(name)
        if mode > BINARY_READ_WRITE:
            return MINUS_ONE
        return self.answer(self.host.open_file, self.slot, text, mode)

    def close(self):
        """Fclose."""
        return self.answer(self.host.close_slot, self.slot)

    def read(self):
        """Fread: buffer p, size q, in pieces of 4,096 bytes, at least one, up to a piece that came short.

        The result is n - q with n bytes read, and -1 - q on a failed or misused call.
        """
        address, size = self.buffer()
        count = 0
        while True:
            wanted = min(PIECE, size - count)
            try:
                data = self.host.read_slot(self.slot, wanted)
            except Failed:
                return -1 - size
            self.put_bytes(address + count, data)
            count += len(data)
            if len(data) < wanted or count == size:
                return count - size

    def get_line(self):
        """Fgets: buffer p, size q. One byte a call is read and stored, until q - 1 bytes or a newline were stored.

        Then a zero byte is stored, and the result is the count. At the end of input, on a failed or misused call, and
        for q = 0 the result is -1 and no zero byte is stored.
        """
        address, size = self.buffer()
        if size == 0:
            return MINUS_ONE
        count, byte = 0, b""
        while count < size - 1 and byte != b"\n":
            try:
                byte = self.host.read_slot(self.slot, 1)
            except Failed:
                return MINUS_ONE
            if not byte:
                return MINUS_ONE
            self.put_bytes(address + count, byte)
            count += 1
        self.put_bytes(address + count, b"\0")
        return count

    def written(self, data):
        """Writes bytes in pieces of 4,096, at least one: how many were in pieces before a failed call, and whether
        none failed.
        """
        count = 0
        while True:
            piece = data[count:count + PIECE]
            try:
                self.host.write_slot(self.slot, piece)
            except Failed:
                return count, False
            count += len(piece)
            if count == len(data):
                return count, True

    def write(self):
        """Fwrite: buffer p, size q. The result is n - q, with n the bytes of the pieces written."""
        address, size = self.buffer()
        data = bytes(self.machine.load(address + it, 1) for it in range(size))
        return self.written(data)[0] - size

    def put_text(self):
        """Fputs: the text at b. The result is its length, or -1."""
        text = self.text(self.b)
        return len(text) if self.written(text)[1] else MINUS_ONE

    def seek(self):
        """Fseek: offset b."""
        return self.answer(self.host.seek_slot, self.slot, signed(self.b))

    def tell(self):
        """Ftell: the place, or -1."""
        try:
            return self.host.tell_slot(self.slot)
        except Failed:
            return MINUS_ONE


def advance(machine, host):
    """One step with its file trap: its trace, or Halted or a stop is raised."""
    trace = machine.step()
    return FileTrap(machine, host).carry_out() if trace is None else trace
