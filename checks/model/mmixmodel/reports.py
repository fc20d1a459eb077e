"""What the steps of a run did: the texts of `--report`, on standard error after the message.

Three texts, of which one that is empty is not written: how often each code was carried out, with its name; how many addresses had
an instruction that was; and the first hundred writes to the data segment, each with the address of the instruction, that of the
octa, tetra, wyde or byte, and its size. A halt is no step that was completed, and not counted.
"""
from collections import Counter

from . import opcodes
from .texts import octa_text

DATA, POOL = 0x2 << 60, 0x4 << 60
MOST_WRITES = 100


def profile(traces):
    """A line for each code, in the order of the codes."""
    counts = Counter(it.word >> 24 for it in traces)
    return "".join(f"profile {code:02x} {opcodes.NAME_OF[code]} {counts[code]}\n" for code in sorted(counts))


def cover(traces):
    """One line with the number of addresses."""
    return f"cover {len({it.pc for it in traces})}\n"


def writes(traces):
    """A line for each of the first writes."""
    found = [it for it in traces if it.writes and DATA <= it.writes.at < POOL][:MOST_WRITES]
    return "".join(f"write {octa_text(it.pc)} {octa_text(it.writes.at)} {it.writes.size}\n" for it in found)


def reports(traces):
    """The texts that are written, in their order."""
    return [text for text in (profile(traces), cover(traces), writes(traces)) if text]
