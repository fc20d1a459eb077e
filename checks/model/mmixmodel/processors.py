"""Several processors on one memory: `multi SCHED OBJ`.

Each processor has registers, a register stack with its stack area, special registers, counters and an address of its own. All other
memory is shared, and so are the streams and the files. Each starts at Main with their number in $0 and its own number, from 0, in
$1, and nothing in the pool segment. There are as many as the greatest byte of the schedule and one.
"""
from .console import End, Session
from .machine import Machine

MOST_PROCESSORS, MOST_BYTES = 8, 1 << 22


def schedule_fault(schedule):
    """The least place of a schedule at which it is refused, or None: 0 where it has no bytes, that of a byte above 7, or 2^22 where
    it has more bytes.
    """
    if not schedule:
        return 0
    for place, who in enumerate(schedule[:MOST_BYTES]):
        if who >= MOST_PROCESSORS:
            return place
    return MOST_BYTES if len(schedule) > MOST_BYTES else None


class Processor(Machine):
    """One of the processors."""

    def __init__(self, image, count, number, kind, ring):
        super().__init__(image, [], kind, ring)
        self.stack.set(0, count)
        self.stack.set(1, number)
        self.end = None

    def set_arguments(self, arguments):
        """Nothing is in the pool segment."""


class Processors:
    """The processors of a schedule, and their turns: one step each, a file trap as a whole."""

    def __init__(self, image, schedule, host, kind, ring):
        count = max(schedule) + 1
        self.schedule, self.host = schedule, host
        self.memory = image.memory
        self.all = [Processor(image, count, number, kind, ring) for number in range(count)]

    def run(self, bound):
        """Turns up to the end: each processor that the schedule names has halted, one stops, or so many steps were made in all. A turn
        of one that has halted is no step.
        """
        made = turn = 0
        while any(self.all[who].end is None for who in set(self.schedule)):
            if made == bound:
                return End("Spent")
            who = self.all[self.schedule[turn % len(self.schedule)]]
            turn += 1
            if who.end is None:
                made += 1
                step = Session(who, self.host, who.steps + 1).step()
                who.end = step if isinstance(step, End) else None
                if who.end and who.end.kind == "Stopped":
                    return who.end
        return End("Halted", (0,))

    def lines(self):
        """A line for each processor."""
        for number, it in enumerate(self.all):
            what = {None: "running", "Halted": f"halted {it.stack.get(255) % 256}"}.get(it.end and it.end.kind)
            yield f"processor {number} {what or f'stopped {it.end.values[1]}'} steps {it.steps}\n"
