"""The console: commands that step, run, show and change a machine.

Before each line the prompt is written to slot 259. Lines are read byte by byte from slot 258; a last carriage return is
dropped, and a last line without a newline counts. Each printed line is one write.

A line that is not bad is wild where it names rS, or shows, changes or goes to an address in Stack_Segment. A wild line
sets `touched`.
"""
import re
from typing import NamedTuple

from . import opcodes
from .expressions import LIMIT
from .faults import Stop, Wild
from .hosts import Failed
from .state import BASE, NEGATIVE, RS, is_in_segment
from .texts import octa_text, state_line, trace_line, value_text
from .traps import Halted, advance

INPUT_SLOT, OUTPUT_SLOT = 258, 259
PROMPT = b"mmix> "
LINE_LIMIT = 4096
FLAGS = "rwxt"

# Numbers are decimal; an address is hexadecimal with or without #; a value is decimal, with or without a minus, or
# hexadecimal after #.
NUMBER, ADDRESS, VALUE, FORM = rb"([0-9]+)", rb"#?([0-9a-fA-F]{1,16})", rb"(-?[0-9]+|#[0-9a-fA-F]+)", rb"([!#\"]?)"
NAME = rb"([A-Za-z:_\x7f-\xff]+)"
COMMANDS = [(kind, re.compile(rb"(?s:" + pattern + rb")\Z")) for kind, pattern in (
    ("step", rb"n?"), ("go", rb"c"), ("quit", rb"q"), ("state", rb"s"), ("flags", rb"B"),
    ("register", rb"\$" + NUMBER + FORM), ("register", rb"\$" + NUMBER + rb"=" + VALUE),
    ("global", rb"g" + NUMBER + FORM), ("global", rb"g" + NUMBER + rb"=" + VALUE),
    ("special", rb"r" + NAME + FORM), ("special", rb"r" + NAME + rb"=" + VALUE),
    ("memory", rb"M" + ADDRESS + FORM), ("memory", rb"M" + ADDRESS + rb"=" + VALUE),
    ("more", rb"\+" + NUMBER + FORM), ("place", rb"@" + ADDRESS), ("break", rb"b([rwx]*)" + ADDRESS),
    ("trace", rb"t" + ADDRESS), ("untrace", rb"u" + ADDRESS))]
WITH_NUMBER = ("register", "global", "more")
WITH_ADDRESS = {"memory": 1, "place": 1, "break": 2, "trace": 1, "untrace": 1}


class Bad(Exception):
    """A bad line changes nothing and writes the first text that applies."""


class End(NamedTuple):
    """How a session or a run ends: Halted, Stopped, Spent, Quit or HostFault, with its values."""

    kind: str
    values: tuple = ()


class Session:
    """A console over a machine, which makes at most `bound` steps in all."""

    def __init__(self, machine, host, bound):
        self.machine, self.host, self.bound = machine, host, bound
        self.flags = {}
        self.shown = None

    def run(self):
        """Takes lines until the session ends: at `q`, at the end of the input at the start of a line, at a halt, a
        stop or the bound, or where a call on the console's slots fails.
        """
        try:
            while True:
                self.host.write_slot(OUTPUT_SLOT, PROMPT)
                line = self.read_line()
                end = End("Quit") if line is None else self.take(line)
                if end:
                    return end
        except Failed:
            return End("HostFault")

    def read_line(self):
        """The next line, or None where the input is at its end."""
        line = bytearray()
        while True:
            byte = self.host.read_slot(INPUT_SLOT, 1)
            if byte == b"\n" or not byte:
                break
            line += byte
        if not byte and not line:
            return None
        return bytes(line[:-1] if line.endswith(b"\r") else line)

    def print(self, text):
        """Writes one line."""
        self.host.write_slot(OUTPUT_SLOT, text.encode("latin-1"))

    def take(self, line):
        """Carries out a line, and gives an end or None."""
        try:
            kind, parts = self.parsed(line)
            return getattr(self, "do_" + kind)(*parts)
        except Bad as bad:
            self.print(f"? {bad}\n")
            return None

    # reading a line

    def parsed(self, line):
        """The command of a line with its parts: numbers as numbers, and a value as ("value", number).

        The first text that applies: an unknown command, or a line of more than 4,096 bytes; a bad number (2^64 or more,
        -n beyond 2^63, or n of + not 1 to 100); no such register; a bad address (2^63 or more, and for b, t and u
        #6000000000000000 or more).
        """
        found = [(kind, pattern.match(line)) for kind, pattern in COMMANDS if pattern.match(line)]
        if not found or len(line) > LINE_LIMIT:
            raise Bad("unknown command")
        kind, parts = found[0][0], list(found[0][1].groups())
        has_value = len(parts) > 1 and (parts[-1][:1].isdigit() or parts[-1][:1] == b"-" or len(parts[-1]) > 1)
        if kind in WITH_NUMBER:
            parts[0] = self.number(parts[0], 10)
        if kind in ("register", "global", "special", "memory"):
            parts[-1] = ("value", self.value(parts[-1])) if has_value else ("form", parts[-1].decode() or "#")
        if kind == "more" and not 1 <= parts[0] <= 100:
            raise Bad("bad number")
        lowest = {"register": 0, "global": self.machine.stack.g}
        if kind in lowest and not lowest[kind] <= parts[0] <= 255:
            raise Bad("no such register")
        if kind == "special":
            name = "r" + parts[0].decode("latin-1")
            if name not in opcodes.SPECIAL_NAMES:
                raise Bad("no such register")
            parts[0] = opcodes.SPECIAL_NAMES.index(name)
        if kind in WITH_ADDRESS:
            place = WITH_ADDRESS[kind] - 1
            parts[place] = int(parts[place], 16)
            if parts[place] >= (BASE if kind in ("break", "trace", "untrace") else NEGATIVE):
                raise Bad("bad address")
        return kind, parts

    def number(self, digits, base):
        """A number below 2^64."""
        number = int(digits, base)
        if number >= LIMIT:
            raise Bad("bad number")
        return number

    def value(self, text):
        """A value as an octa."""
        if text[:1] == b"#":
            return self.number(text[1:], 16)
        if text[:1] == b"-":
            number = int(text[1:])
            if number > NEGATIVE:
                raise Bad("bad number")
            return -number % LIMIT
        return self.number(text, 10)

    # steps

    def flagged(self, address, letter):
        """Whether the tetra that holds an address has a flag."""
        return letter in self.flags.get(address // 4 * 4, "")

    def broken(self, trace):
        """The break that a step meets: read before write, the lowest tetra so flagged; file traps meet none."""
        for letter, touch in (("r", trace.reads), ("w", trace.writes)):
            if touch:
                for address in range(touch.at // 4 * 4, touch.at + touch.size, 4):
                    if self.flagged(address, letter):
                        return f"break {letter} {octa_text(address)}\n"
        return None

    def step(self):
        """One step: its trace, or the end that it comes to."""
        if self.machine.steps >= self.bound:
            return End("Spent")
        try:
            return advance(self.machine, self.host)
        except Halted:
            return End("Halted", (self.machine.stack.get(255) & 255,))
        except Stop as stop:
            return End("Stopped", (self.machine.pc, stop.reason))

    def do_step(self):
        """One step, with its trace line; it looks at no flag."""
        trace = self.step()
        if isinstance(trace, End):
            return trace
        self.print(trace_line(trace, self.machine))
        return None

    def do_go(self):
        """Goes on to a break, passing one on execution at the first step; a traced step writes its trace line.

        A step that both is traced and breaks writes its trace line first.
        """
        is_first = True
        while True:
            if self.machine.steps >= self.bound:
                return End("Spent")
            if self.flagged(self.machine.pc, "x") and not is_first:
                self.print(f"break x {octa_text(self.machine.pc)}\n")
                return None
            is_first = False
            trace = self.step()
            if isinstance(trace, End):
                return trace
            if self.flagged(trace.pc, "t"):
                self.print(trace_line(trace, self.machine))
            broken = self.broken(trace)
            if broken:
                self.print(broken)
                return None

    def do_quit(self):
        """Ends the session."""
        return End("Quit")

    # showing and changing

    def note_wild(self, is_wild):
        """A wild line sets touched; a machine with a list ends there."""
        if is_wild and self.machine.kind == "list":
            raise Wild()
        self.machine.touched |= is_wild

    def do_state(self):
        """The line with steps, next address, L and G."""
        self.print(state_line(self.machine))

    def show(self, name, value, change):
        """Writes a value; after a change always in hexadecimal."""
        self.print(f"{name}={value_text(value, change[1] if change[0] == 'form' else '#')}\n")

    def do_register(self, k, change):
        """Shows or changes $k."""
        if change[0] == "value" and not self.machine.set_register(k, change[1]):
            raise Bad("cannot change")
        self.show(f"${k}", self.machine.stack.get(k), change)

    def do_global(self, k, change):
        """Shows or changes a global register."""
        if change[0] == "value":
            self.machine.stack.set(k, change[1])
        self.show(f"g{k}", self.machine.stack.get(k), change)

    def do_special(self, code, change):
        """Shows or changes a special register; what PUT refuses cannot be changed."""
        if change[0] == "value" and self.machine.put_reason(code, change[1]):
            raise Bad("cannot change")
        self.note_wild(code == RS)
        if change[0] == "value":
            self.machine.put(code, change[1])
        self.show(opcodes.SPECIAL_NAMES[code], self.machine.special_value(code), change)

    def do_memory(self, address, change):
        """Shows or changes the octa that holds an address."""
        address = address // 8 * 8
        if change[0] == "value" and not self.machine.has_room(address):
            raise Bad("cannot change")
        self.note_wild(is_in_segment(address))
        if change[0] == "value":
            self.machine.store(address, 8, change[1])
        self.shown = address
        self.show("M" + octa_text(address), self.machine.octa(address), change)

    def do_more(self, count, form):
        """The octas after the one that was shown last; what would pass the last address shows nothing."""
        if self.shown is None or self.shown + 8 * count >= NEGATIVE:
            raise Bad("no memory shown yet")
        self.note_wild(is_in_segment(self.shown + 8 * count))
        for _ in range(count):
            self.shown += 8
            self.show("M" + octa_text(self.shown), self.machine.octa(self.shown), ("form", form.decode() or "#"))

    def do_place(self, address):
        """The next address, lowered to a multiple of 4."""
        self.note_wild(is_in_segment(address))
        self.machine.pc = address // 4 * 4

    def set_flags(self, address, letters):
        """Sets the flags of the tetra that holds an address."""
        self.flags[address // 4 * 4] = "".join(it for it in FLAGS if it in letters)

    def do_break(self, letters, address):
        """Sets these of the flags r, w and x, and clears the others of them."""
        kept = "t" if self.flagged(address, "t") else ""
        self.set_flags(address, letters.decode() + kept)

    def do_trace(self, address):
        """Sets the flag t."""
        self.set_flags(address, self.flags.get(address // 4 * 4, "") + "t")

    def do_untrace(self, address):
        """Clears the flag t."""
        self.set_flags(address, self.flags.get(address // 4 * 4, "").replace("t", ""))

    def do_flags(self):
        """Each flagged tetra, ascending, with its letters."""
        for address in sorted(it for it, letters in self.flags.items() if letters):
            self.print(f"{octa_text(address)} {self.flags[address]}\n")
