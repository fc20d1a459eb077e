#!/usr/bin/env python3
"""How long `mmixview dap` takes: a step forward and back, any step of a run of 10^7 steps, and what else is asked at a stop.

usage: checks/dap/figures.py [PROGRAM]
"""
import os
import random
import statistics
import sys
import tempfile
import time

HERE = os.path.dirname(os.path.dirname(os.path.dirname(os.path.abspath(__file__))))
sys.path.insert(0, os.path.join(HERE, "checks", "dap"))
import wire  # noqa: E402
from frames import held  # noqa: E402

PROGRAM = wire.program(sys.argv[1:])
STEPS = 10**7
# two steps, three for each turn of the loop, and one before the end
SOURCE = """        LOC   #100
Main    SETML $0,#32
        INCL  $0,#dcd4
Loop    ADDU  $1,$1,$0
        SUBU  $0,$0,1
        PBNZ  $0,Loop
        SETL  $255,0
        TRAP  0,Halt,0
"""


def print_times(what, times):
    """Writes times in milliseconds."""
    print("%s: %.2f ms in the median, %.2f ms at most, of %d" % (what, statistics.median(times), max(times), len(times)))


def time_calls(calls):
    """How long each of some calls takes, in milliseconds."""
    times = []
    for call in calls:
        begun = time.perf_counter()
        call()
        times.append((time.perf_counter() - begun) * 1000)
    return times


def make_goto(adapter, step):
    """A call that goes to a step."""

    def call():
        adapter.events.clear()
        adapter.want("evaluate", {"expression": "goto %d" % step, "context": "repl"})
        stop = adapter.wait("stopped")["body"]
        if stop["description"] != "step %d" % step:
            raise ValueError("goto %d: %s" % (step, stop))

    return call


def ask_variables(adapter):
    """What a client asks at a stop."""
    for reference in adapter.scopes().values():
        adapter.variables(reference)


def main():
    """All figures."""
    random_ = random.Random(20261201)
    with tempfile.TemporaryDirectory() as folder:
        source = os.path.join(folder, "loop.mms")
        with open(source, "w", encoding="ascii") as out:
            out.write(SOURCE)
        adapter = wire.Adapter(PROGRAM)
        print_times("launch", time_calls([lambda: adapter.begin(source, stopOnEntry=True)]))
        adapter.start()
        print_times("a step forward, near the start", time_calls([lambda: adapter.go("stepIn")] * 100))
        print_times("a step back, near the start", time_calls([lambda: adapter.go("stepBack")] * 100))
        print_times("continue, to the end after 10^7 steps", time_calls([lambda: adapter.go("continue")]))
        print_times("a step back, near the end", time_calls([lambda: adapter.go("stepBack")] * 100))
        print_times("a step forward, near the end", time_calls([lambda: adapter.go("stepIn")] * 90))
        print_times("a step back by one, near the end", time_calls([lambda: adapter.go("stepBack", granularity="instruction")] * 100))
        print_times("any step of 10^7", time_calls([make_goto(adapter, random_.randrange(STEPS)) for _ in range(60)]))
        print_times("all that is shown at a stop", time_calls([lambda: ask_variables(adapter)] * 50))
        print_times("reverse-continue, to the start", time_calls([lambda: adapter.go("reverseContinue")]))
        print("held: %d kB" % held(adapter))
        adapter.end()


main()
