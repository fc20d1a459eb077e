"""The whole program: `mmixware WORDS` over a host.

It reads the words; reads the file on slot 256; assembles or loads; writes the object on slot 257, or starts the machine
and runs it, or holds the console session; writes the lines of the steps that are taken back, and the dump, to slot 259; and
writes one message line to slot 260, and the reports after it. With `multi` the schedule is read first, and then the object.
"""
from typing import NamedTuple

from .assembler import Assembly
from .console import End, Session
from .faults import Fault, Stop, Wild
from .history import History
from .hosts import BINARY_READ, BINARY_WRITE, Absent, Failed
from .lines import SOURCE_LIMIT
from .listing import listing
from .machine import Machine
from .objects import OBJECT_LIMIT, read_object
from .orders import UsageFault, read_order
from .processors import Processors, schedule_fault
from .reports import reports
from .texts import dump_lines, message, octa_lines, state_line
from .traps import PIECE

IN_FILE, OUT_FILE, OUTPUT_SLOT, ERROR_SLOT = 256, 257, 259, 260
STATUSES = {"Quit": 0, "Usage": 64, "Refused": 65, "BadObject": 65, "BadSchedule": 65, "NoFile": 66, "Stopped": 70, "HostFault": 74,
            "StepsSpent": 75, "ConsoleLimit": 76}
GENERATOR_STEPS = 1 << 26


class Outcome(NamedTuple):
    """How the program ends, with its values."""

    kind: str
    values: tuple = ()

    def status(self):
        """The exit status; that of Done is its own."""
        return self.values[0] if self.kind == "Done" else STATUSES[self.kind]


def read_file(host, name, limit):
    """Reads a file in pieces of 4,096 bytes until one is shorter or more than the limit was taken, and closes it."""
    host.open_file(IN_FILE, name, BINARY_READ)
    data = bytearray()
    while True:
        piece = host.read_slot(IN_FILE, PIECE)
        data += piece
        if len(piece) < PIECE or len(data) > limit:
            break
    host.close_slot(IN_FILE)
    return bytes(data)


def write_file(host, data):
    """Writes the object, which is open, in pieces of 4,096 bytes, and closes it."""
    for at in range(0, len(data), PIECE):
        host.write_slot(OUT_FILE, data[at:at + PIECE])
    host.close_slot(OUT_FILE)


def generated(blocks):
    """The source of `gen`: each block asks for the sum from 1 to a, and adds c where the sum so far is even.

    x_i = 6364136223846793005 x_(i-1) + 1442695040888963407 modulo 2^64 from x_0 = 0; a = floor(x_i / 2^55) and
    c = x_i modulo 2^16.
    """
    lines, x = [" LOC #100", "Main SETL $0,0"], 0
    for number in range(1, blocks + 1):
        x = (6364136223846793005 * x + 1442695040888963407) % (1 << 64)
        lines += [f"B{number} SETL $2,{x >> 55}", " PUSHJ $1,Rec", " ADDU $0,$0,$1", f" BOD $0,B{number + 1}",
                  f" INCL $0,{x % 65536}"]
    lines += [f"B{blocks + 1} SET $255,$0", " TRAP 0,Halt,0", "Rec BZ $0,1F", " GET $1,rJ", " SUBU $3,$0,1",
              " PUSHJ $2,Rec", " ADDU $0,$0,$2", " PUT rJ,$1", " POP 1,0", "1H POP 1,0"]
    return "".join(line + "\n" for line in lines).encode()


class Program:
    """One run of the program."""

    def __init__(self, words, host, kind):
        self.words, self.host, self.kind = words, host, kind
        self.order = None
        self.machine = None
        self.traces = []

    def run(self):
        """The outcome before its message. A failed call of the program itself ends its work at once."""
        try:
            self.order = read_order(self.words)
            return {"asm": self.assemble, "gen": self.generate, "type": self.show,
                    "multi": self.take_turns}.get(self.order.command, self.execute)()
        except UsageFault as fault:
            return Outcome("Usage", (fault.kind, fault.word))
        except Failed:
            return Outcome("HostFault")

    def file_word(self):
        """The file word in bytes."""
        return self.words[self.order.file].encode()

    def read_input(self, limit):
        """The file, or None where it is missing."""
        try:
            return read_file(self.host, self.file_word(), limit)
        except Absent:
            return None

    def assemble(self):
        """`asm`: after a refusal the object holds the items of the statements before the faulty one."""
        source = self.read_input(SOURCE_LIMIT)
        if source is None:
            return Outcome("NoFile")
        self.host.open_file(OUT_FILE, self.words[self.order.rest].encode(), BINARY_WRITE)
        assembly = Assembly(source, with_pages=False)
        write_file(self.host, assembly.object())
        return Outcome("Refused", tuple(assembly.refusal)) if assembly.refusal else Outcome("Done", (0,))

    def show(self):
        """`type`: each line of the listing is one write."""
        data = self.read_input(OBJECT_LIMIT)
        if data is None:
            return Outcome("NoFile")
        try:
            for line in listing(data):
                self.host.write_slot(OUTPUT_SLOT, line.encode())
        except Fault as fault:
            return Outcome("BadObject", (fault.place, fault.number))
        return Outcome("Done", (0,))

    def execute(self):
        """`run` and `sim`. Argument 0 is the file word without a last .mms or .mmo."""
        is_source = self.order.command == "run"
        data = self.read_input(SOURCE_LIMIT if is_source else OBJECT_LIMIT)
        if data is None:
            return Outcome("NoFile")
        if is_source:
            assembly = Assembly(data)
            if assembly.refusal:
                return Outcome("Refused", tuple(assembly.refusal))
            image = assembly.image()
        else:
            try:
                image = read_object(data)
            except Fault as fault:
                return Outcome("BadObject", (fault.place, fault.number))
        name = self.file_word()
        name = name[:-4] if name.endswith((b".mms", b".mmo")) else name
        outcome = self.started(image, [name] + [word.encode() for word in self.words[self.order.rest:]])
        if self.machine and self.order.has_dump and outcome.kind != "HostFault":
            self.write_lines(dump_lines(self.machine))
        return outcome

    def write_lines(self, lines):
        """Writes lines to standard output, one call each."""
        for line in lines:
            self.host.write_slot(OUTPUT_SLOT, line.encode())

    def started(self, image, arguments):
        """Starts the machine, and runs it or holds the session."""

        def start(of_image):
            return Machine(of_image, arguments, self.kind, self.order.ring)

        history = History(image, self.host) if self.order.last else None
        try:
            self.machine = start(image)
        except Stop as stop:
            return Outcome("Stopped", (image.values[-1] // 4 * 4, stop.reason))
        session = Session(self.machine, self.host, self.order.steps)
        end = session.run() if self.order.is_interactive else run_to_end(session, self.traces)
        if history:
            for state in history.states_before(start, self.traces, end, self.order.last, self.order.steps):
                self.machine = state
                self.host.write_slot(OUTPUT_SLOT, state_line(state).encode())
        return self.outcome_of(end)

    def outcome_of(self, end):
        """The outcome of a run, of a session or of turns, by its end."""
        kind = {"Halted": "Done", "Spent": "StepsSpent"}.get(end.kind, end.kind)
        return Outcome(kind, (self.order.steps,) if end.kind == "Spent" else end.values)

    def take_turns(self):
        """`multi`: the schedule is read, and where it is in order the object; then its processors run."""
        schedule = self.read_input(SOURCE_LIMIT)
        if schedule is None:
            return Outcome("NoFile")
        fault = schedule_fault(schedule)
        if fault is not None:
            return Outcome("BadSchedule", (fault,))
        try:
            image = read_object(read_file(self.host, self.words[self.order.rest].encode(), OBJECT_LIMIT))
        except Absent:
            return Outcome("NoFile")
        except Fault as fault_of_object:
            return Outcome("BadObject", (fault_of_object.place, fault_of_object.number))
        processors = Processors(image, schedule, self.host, self.kind, self.order.ring)
        end = processors.run(self.order.steps)
        self.write_lines(processors.lines())
        if self.order.has_dump:
            self.write_lines(octa_lines(processors.memory.nonzero()))
        return self.outcome_of(end)

    def generate(self):
        """`gen`: runs the generated source and writes a summary."""
        source = generated(self.order.number)
        self.machine = Machine(Assembly(source).image(), [b"gen"], self.kind, self.order.ring)
        end = run_to_end(Session(self.machine, self.host, GENERATOR_STEPS))
        assert end.kind == "Halted"
        value = self.machine.stack.get(255)
        line = f"blocks {self.order.number} bytes {len(source)} steps {self.machine.steps} sum {value}\n"
        self.host.write_slot(OUTPUT_SLOT, line.encode())
        return Outcome("Done", (0,))


def run_to_end(session, traces=None):
    """Steps to the end, without flags; their traces are kept where a list is given."""
    while True:
        step = session.step()
        if isinstance(step, End):
            return step
        if traces is not None:
            traces.append(step)


def mmixware(words, host, kind="window"):
    """The outcome of the program; what it wrote is in the host.

    A failed write of the dump or of the summary is HostFault in place of the outcome, and a failed write of the message
    or of a report changes nothing. With a list of hidden registers the run ends at its first wild step or line with the
    outcome Wild.
    """
    program = Program(words, host, kind)
    try:
        outcome = program.run()
    except Wild:
        return Outcome("Wild")
    text = message(outcome)
    has_report = program.order and program.order.has_report
    for told in ([text] if text else []) + (reports(program.traces) if has_report else []):
        try:
            host.write_slot(ERROR_SLOT, told.encode())
        except Failed:
            pass
    return outcome
