#!/usr/bin/env python3
"""Streams for `mmixview dap` that are cut, doubled, giant, or no messages, and requests with arguments of all sorts: each request has one
answer, and none hangs.

usage: checks/dap/fuzz.py [PROGRAM [COUNT]]
"""
import os
import sys

HERE = os.path.dirname(os.path.dirname(os.path.dirname(os.path.abspath(__file__))))
sys.path.insert(0, os.path.join(HERE, "checks", "dap"))
import wire  # noqa: E402
import streams  # noqa: E402

PROGRAM = wire.program(sys.argv[1:])
COUNT = int(sys.argv[2]) if len(sys.argv) > 2 else 10000
SOURCES = [os.path.join(HERE, "examples", name) for name in ("hello.mms", "factorial.mms", "refused.mms", "none.mms")]
COMMANDS = (
    "initialize launch setBreakpoints setFunctionBreakpoints dataBreakpointInfo setDataBreakpoints setExceptionBreakpoints configurationDone threads "
    "stackTrace scopes variables evaluate readMemory disassemble continue next stepIn stepOut stepBack reverseContinue pause"
).split()
START = ("initialize", "launch", "configurationDone")
NAMES = (
    "program args stdin files steps ring stopOnEntry threadId frameId startFrame levels variablesReference start count expression context "
    "memoryReference offset instructionOffset instructionCount breakpoints name dataId lines filters"
).split()
ODD = [None, True, False, 0, 1, -1, 2**31, 2**63, 2**64, -(2**70), 1.5, 1e300, "", "x", "$1", "rJ", "M#", "M#100", "0x100", "#", "Main", "goto 3", "\u00e9\U0001d11e\0", [], {}, [[]]]


def usual_arguments(random_, command):
    """Arguments as a client sends them."""
    source = random_.choice(SOURCES)
    return {
        "launch": {"program": source, "stopOnEntry": random_.randrange(2) == 0},
        "setBreakpoints": {"source": {"path": source}, "breakpoints": [{"line": random_.randrange(30)} for _ in range(random_.randrange(3))]},
        "setFunctionBreakpoints": {"breakpoints": [{"name": random_.choice(["Main", "Text", "x"])}]},
        "dataBreakpointInfo": {"name": "$1"},
        "setDataBreakpoints": {"breakpoints": [{"dataId": "$1"}]},
        "setExceptionBreakpoints": {"filters": []},
        "scopes": {"frameId": random_.randrange(3)},
        "variables": {"variablesReference": random_.randrange(6)},
        "evaluate": {"expression": random_.choice(["$1", "rJ", "Main", "M#100", "goto 3", "info output", ""]), "context": random_.choice(["repl", "hover", "watch"])},
        "readMemory": {"memoryReference": "0x100", "count": random_.randrange(40)},
        "disassemble": {"memoryReference": "0x100", "instructionCount": random_.randrange(9), "instructionOffset": -2},
    }.get(command, {"threadId": 1})


def change_arguments(random_, arguments):
    """Arguments of which some are none of theirs."""
    if random_.randrange(8) == 0:
        return random_.choice(ODD)
    changed = dict(arguments)
    for _ in range(random_.randrange(1, 3)):
        changed[random_.choice(list(arguments) + NAMES)] = random_.choice(ODD)
    for name in list(changed):
        if random_.randrange(8) == 0:
            del changed[name]
    return changed


def good(random_, mark):
    """A request, and how many answers it has: one, whatever its arguments are."""
    if mark < 3 and random_.randrange(4):
        return wire.framed(wire.request(mark + 1, START[mark], usual_arguments(random_, START[mark]))), 1
    if random_.randrange(12) == 0:
        return wire.framed(wire.request(mark + 1, random_.choice(["", "none", "attach", "\u00e9", "Launch"]), {})), 1
    command = random_.choice(COMMANDS)
    arguments = usual_arguments(random_, command)
    if random_.randrange(2):
        arguments = change_arguments(random_, arguments)
    return wire.framed(wire.request(mark + 1, command, arguments)), 1


sys.exit(1 if streams.try_streams([PROGRAM, "dap"], good, lambda it: it["type"] == "response", COUNT, 20261201) else 0)
