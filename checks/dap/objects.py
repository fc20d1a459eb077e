#!/usr/bin/env python3
"""C programs that were compiled for MMIX, by `mmixview dap`: each is stopped in `main`, goes on to a call of printf or its like that writes
something, and is stepped back over that call, which takes the output back.

usage: checks/dap/objects.py [PROGRAM [FOLDER]]
FOLDER has the objects *.mmo, by default ../shared/bench/gcc. It says what is not tried.
"""
import glob
import os
import re
import sys

HERE = os.path.dirname(os.path.dirname(os.path.dirname(os.path.abspath(__file__))))
sys.path.insert(0, os.path.join(HERE, "checks", "dap"))
import wire  # noqa: E402

PROGRAM = wire.program(sys.argv[1:])
FOLDER = sys.argv[2] if len(sys.argv) > 2 else os.path.join(HERE, "..", "shared", "bench", "gcc")
WRITERS = ("printf", "iprintf", "puts", "putchar")
MOST = 300


def step_of(stop):
    """The number of the step of a stop."""
    return int(stop["description"].split()[1])


def break_at(adapter, names):
    """Breaks at some functions, and at no other."""
    return adapter.want("setFunctionBreakpoints", {"breakpoints": [{"name": name} for name in names]})["breakpoints"]


def find_call(adapter):
    """Goes on to the return of a call that writes something: the step of the call, and the stop after it."""
    for _ in range(MOST):
        break_at(adapter, WRITERS)
        stop = adapter.go("continue")
        if stop["reason"] != "function breakpoint":
            break
        break_at(adapter, ())
        adapter.outputs.clear()
        after = adapter.go("stepOut")
        if adapter.written():
            return step_of(stop) - 1, after
    raise wire.Failed("nothing is written: %s" % stop)


def go_over(adapter, command, step):
    """Goes over the call, to a step: what was written, and what the console says."""
    adapter.outputs.clear()
    stop = adapter.go(command)
    if step_of(stop) != step:
        raise wire.Failed("%s leads to step %d: %s" % (command, step, stop))
    return adapter.written(), adapter.written("console")


def try_object(path):
    """Goes over a call that writes something, back and forth: what was done."""
    adapter = wire.Adapter(PROGRAM, seconds=600)
    adapter.begin(path, stopOnEntry=True)
    if not break_at(adapter, ["main"])[0]["verified"]:
        adapter.end()
        return "not tried: it has no symbol main"
    adapter.start()
    stop = adapter.go("continue")
    if stop["reason"] != "function breakpoint" or not adapter.top()["name"].startswith("main"):
        raise wire.Failed("it does not stop in main: %s" % stop)
    step, after = find_call(adapter)
    wrote = adapter.written()
    back = go_over(adapter, "stepBack", step)[1]
    taken = re.search(r"output taken back to step %d: (\d+) bytes" % step, back)
    if not taken or int(taken[1]) != len(wrote.encode()):
        raise wire.Failed("%r is taken back: %r" % (wrote, back))
    again = go_over(adapter, "next", step_of(after))[0]
    if again != wrote:
        raise wire.Failed("%r is written again: %r" % (wrote, again))
    adapter.end()
    return "the call of step %d leads to step %d and writes %d bytes, and back" % (step, step_of(after), len(wrote))


def main():
    """All objects."""
    wrong = 0
    found = sorted(glob.glob(os.path.join(FOLDER, "*.mmo")))
    if not found:
        print("checks/dap: there are no objects in %s; none is tried" % FOLDER)
    for path in found:
        try:
            told = try_object(os.path.abspath(path))
        except (wire.Failed, EOFError, KeyError) as fault:
            wrong += 1
            told = repr(fault)
        print("%s: %s" % (os.path.basename(path), told))
    return 1 if wrong else 0


sys.exit(main())
