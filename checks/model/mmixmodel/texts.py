"""Printed texts: values, instructions, trace lines, the dump, and messages."""
from . import opcodes
from .expressions import LIMIT, signed
from .faults import NAMES, USAGE_NAMES
from .machine import Work
from .state import BASE, RS

SHOWN = {
    "three": "$X,$Y,either", "registers": "$X,$Y,$Z", "round": "$X,Y,$Z", "round or byte": "$X,Y,either",
    "negate": "$X,Y,either", "relative": "$X,near", "memory": "$X,$Y,either", "memory pure": "X,$Y,either",
    "wyde": "$X,YZ", "jump": "far", "put": "X,either", "get": "$X,Z", "pop": "X,YZ", "one": "XYZ", "save": "$X,Z",
    "unsave": "X,$Z", "free": "X,Y,Z",
}


def octa_text(value):
    """# and 16 lower-case hexadecimal digits."""
    return f"#{value:016x}"


def value_text(value, form="#"):
    """A value: # in hexadecimal, ! as a signed decimal, " as its eight bytes, with a point outside 32 to 126."""
    if form == "!":
        return str(signed(value))
    if form == '"':
        return '"' + "".join(chr(it) if 32 <= it <= 126 else "." for it in value.to_bytes(8, "big")) + '"'
    return octa_text(value)


def instruction_text(word, pc):
    """The base name, a blank, and the operands in decimal; an address is shown as its target."""
    code = word >> 24
    work = Work(word, pc)
    width = 1 << 24 if code in (0xF0, 0xF1) else 1 << 16
    distance = word % width - (width if code & 1 else 0)
    parts = {"$X": f"${work.x}", "$Y": f"${work.y}", "$Z": f"${work.z}", "X": str(work.x), "Y": str(work.y),
             "Z": str(work.z), "YZ": str(word & 0xFFFF), "XYZ": str(word & 0xFFFFFF),
             "either": str(work.z) if code & 1 else f"${work.z}"}
    parts["near"] = parts["far"] = octa_text((pc + 4 * distance) % LIMIT)
    operands = ",".join(parts[it] for it in SHOWN[opcodes.SHAPE_OF[code]].split(","))
    return f"{opcodes.NAME_OF[code]} {operands}"


def trace_line(trace, machine):
    """The address, the tetra and the instruction; then the new value of a destination, the octa that was written,
    $255 of a trap, and the next address where it is not the following one.
    """
    line = f"{octa_text(trace.pc)} {trace.word:08x} {instruction_text(trace.word, trace.pc)}"
    if trace.dest is not None:
        line += f" ${trace.dest}={octa_text(machine.stack.get(trace.dest))}"
    if trace.writes:
        at = trace.writes.at // 8 * 8
        line += f" M{octa_text(at)}={octa_text(machine.octa(at))}"
    if trace.is_trap:
        line += f" $255={octa_text(machine.stack.get(255))}"
    if trace.next != (trace.pc + 4) % LIMIT:
        line += f" -> {octa_text(trace.next)}"
    return line + "\n"


def dump_lines(machine):
    """Special registers in the order of their codes, locals and globals, and each nonzero octa, ascending.

    rS and the octas of the stack area are left out unless the machine was touched.
    """
    for code, name in enumerate(opcodes.SPECIAL_NAMES):
        if code != RS or machine.touched:
            yield f"{name}={octa_text(machine.special_value(code))}\n"
    for k in list(range(machine.stack.l)) + list(range(machine.stack.g, 256)):
        yield f"${k}={octa_text(machine.stack.get(k))}\n"
    rows = machine.memory.nonzero()
    if machine.touched:
        rows += [(BASE + 8 * index, octa) for index, octa in machine.stack.octas.items() if octa]
    yield from octa_lines(sorted(rows))


def octa_lines(rows):
    """A line for each octa with its address."""
    for address, octa in rows:
        yield f"M{octa_text(address)}={octa_text(octa)}\n"


def state_line(machine):
    """The number of steps, the next address, L and G."""
    return f"steps {machine.steps} at {octa_text(machine.pc)} L {machine.stack.l} G {machine.stack.g}\n"


def message(outcome):
    """The line on standard error for an outcome; None for Done and Quit."""
    kind, values = outcome.kind, outcome.values
    if kind in ("Done", "Quit"):
        return None
    if kind == "Usage":
        return f"usage fault {values[0]} {USAGE_NAMES[values[0]]} at word {values[1]}\n"
    if kind == "Refused":
        line, fault, from_line = values
        return f"line {line}: {fault} {NAMES[fault]}" + (f" from line {from_line}" if from_line else "") + "\n"
    if kind == "BadObject":
        return f"byte {values[0]}: {values[1]} {NAMES[values[1]]}\n"
    if kind == "BadSchedule":
        return f"schedule byte {values[0]}\n"
    if kind == "Stopped":
        return f"{octa_text(values[0])}: {values[1]} {NAMES[values[1]]}\n"
    if kind == "StepsSpent":
        return f"{values[0]} steps spent\n"
    return {"NoFile": "no file\n", "HostFault": "host fault\n", "ConsoleLimit": "console limit\n"}[kind]
