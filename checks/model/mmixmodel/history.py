"""The last steps of a run, taken back: `--last`.

A run keeps its last 1,024 steps. A file trap that was completed is not taken back, nor is a step before it; one that stopped for
pages (123) moved bytes, and after it none is. The states are found by making the run again, over a host as it was, up to the first
of them: so nothing of how a step is undone is in here.
"""
import copy

from .console import Session

KEPT = 1024
TRAP_PAGES_FULL = 123


class History:
    """What a run of an image begins with, kept for another run."""

    def __init__(self, image, host):
        self.image, self.host = copy.deepcopy(image), copy.deepcopy(host)

    def states_before(self, start, traces, end, last, bound):
        """The states before the last steps, the last one first: at most `last` of those that are kept. `start` makes a machine of
        an image, `traces` are those of the steps that were completed, and `end` is how the run ended.
        """
        if end.kind not in ("Stopped", "Spent") or end.values[1:] == (TRAP_PAGES_FULL,):
            return []
        traps = [number for number, it in enumerate(traces, 1) if it.is_trap]
        count = min(last, KEPT, len(traces) - (traps[-1] if traps else 0))
        machine = start(self.image)
        session = Session(machine, self.host, bound)
        for _ in range(len(traces) - count):
            session.step()
        states = []
        for _ in range(count):
            states.insert(0, copy.deepcopy(machine))
            session.step()
        return states
