#!/usr/bin/env python3
"""Sessions with `mmixview dap` that have each of its requests, good and bad. All messages of both sides are held against the protocol's schema.

usage: checks/dap/schema.py [PROGRAM]
It says where the package with the schema is missing.
"""
import base64
import os
import subprocess
import sys
import tempfile

HERE = os.path.dirname(os.path.dirname(os.path.dirname(os.path.abspath(__file__))))
sys.path.insert(0, os.path.join(HERE, "checks", "dap"))
import protocol  # noqa: E402
import wire  # noqa: E402

PROGRAM = wire.program(sys.argv[1:])
MMIXWARE = os.path.join(os.path.dirname(PROGRAM), "mmixware")
SOURCE = """* prints a line three times, with a call after each
        LOC   Data_Segment
        GREG  @
Text    BYTE  "ab",#a,0
Count   OCTA  3
k       IS    $0
        LOC   #100
Main    LDO   k,Count
Loop    LDA   $255,Text
        TRAP  0,Fputs,StdOut
        SET   $2,k
        PUSHJ $1,Twice
        SUB   k,k,1
        PBP   k,Loop
        SET   $255,7
        TRAP  0,Halt,0
Twice   ADDU  $0,$0,$0
        POP   1,0
"""
FAULTY = SOURCE.replace("k,Count", "k,Cuont").replace("$1,Twice", "$1,Twise")
STOPPED = "        LOC   #100\nMain    SETL  $0,1\n        TETRA #fe000100\n"
ENDLESS = "        LOC   #100\nMain    JMP   Main\n"
REQUESTS = set(
    "initialize launch setBreakpoints setFunctionBreakpoints setInstructionBreakpoints dataBreakpointInfo setDataBreakpoints setExceptionBreakpoints "
    "configurationDone threads stackTrace scopes variables evaluate readMemory disassemble source continue next stepIn stepOut stepBack "
    "reverseContinue pause exceptionInfo loadedSources cancel terminate disconnect".split()
)
EVENTS = {"initialized", "stopped", "output", "exited", "terminated"}
reported = []
had = {"good": set(), "bad": set(), "events": set()}


def report(what, got=None):
    """Says what is not so."""
    reported.append(what)
    print("not so:", what, "" if got is None else got)


class Session(wire.Adapter):
    """A session that is held against the schema. A bad request need not follow it."""

    def __init__(self, schema):
        self.schema = schema
        self.is_bad = False
        self.last = 0
        super().__init__(PROGRAM, self.look)

    def look(self, message, is_told):
        """Looks at a message."""
        if is_told:
            self.last += 1
            if message.get("seq") != self.last:
                report("messages are numbered from 1", message)
            if message.get("type") == "event":
                had["events"].add(message["event"])
        if is_told or not self.is_bad:
            for fault in self.schema.faults(message):
                report(fault, message)

    def good(self, command, arguments=None, so=lambda body: True):
        """A request that has success, and of whose answer something is so: its body."""
        had["good"].add(command)
        answer = self.ask(command, arguments)
        body = answer.get("body", {})
        if not answer["success"] or not so(body):
            report("%s %s" % (command, arguments), answer)
        return body

    def odd(self, command, arguments=None):
        """A request that need not follow the schema: its answer, which does."""
        had["bad"].add(command)
        self.is_bad = True
        answer = self.ask(command, arguments)
        self.is_bad = False
        return answer

    def bad(self, command, arguments=None):
        """A request that has no success."""
        answer = self.odd(command, arguments)
        if answer["success"]:
            report("%s %s is refused" % (command, arguments), answer)

    def stop(self, reason, step, command=None, **arguments):
        """A request that leads to another step."""
        if command:
            self.events.clear()
            self.good(command, {"threadId": 1, **arguments} if command != "configurationDone" else None)
        got = self.wait("stopped", "terminated").get("body", {})
        if got.get("reason") != reason or got.get("description") != "step %d" % step:
            report("%s stops at step %d by %s" % (command, step, reason), got)


def ask_too_early(session):
    """Requests that come too early."""
    session.bad("launch", {})
    session.good("initialize", {"adapterID": "mmix", "clientID": "schema", "linesStartAt1": True, "supportsVariableType": True}, lambda it: it["supportsStepBack"])
    place = {"threadId": 1}
    for command in ("continue", "next", "stepIn", "stepOut", "stepBack", "reverseContinue", "stackTrace", "exceptionInfo"):
        session.bad(command, place)
    session.bad("configurationDone")
    session.bad("loadedSources")
    session.bad("pause", place)
    session.bad("setBreakpoints", {"source": {"path": "x.mms"}, "breakpoints": [{"line": 1}]})
    for command in ("setFunctionBreakpoints", "setInstructionBreakpoints", "setDataBreakpoints"):
        session.bad(command, {"breakpoints": []})
    for command, more in (
        ("evaluate", {"expression": "$1"}),
        ("scopes", {"frameId": 1}),
        ("variables", {"variablesReference": 2}),
        ("readMemory", {"memoryReference": "0x100", "count": 8}),
        ("disassemble", {"memoryReference": "0x100", "instructionCount": 8}),
        ("dataBreakpointInfo", {"name": "$1"}),
        ("source", {"sourceReference": 1}),
    ):
        session.bad(command, more)
    session.bad("none", {})
    session.bad("attach", {})


def set_breaks(session, path):
    """Breaks of all kinds, before the run begins."""
    place = {"name": os.path.basename(path), "path": path}
    lines = [{"line": 8}, {"line": 16}, {"line": 99}]
    told = session.good("setBreakpoints", {"source": place, "breakpoints": lines}, lambda it: [one["verified"] for one in it["breakpoints"]] == [True, True, False])
    if [one.get("line") for one in told["breakpoints"][:2]] != [8, 16]:
        report("breaks are at their lines", told)
    session.good("setBreakpoints", {"source": place, "breakpoints": [{"line": 2}]}, lambda it: it["breakpoints"][0]["line"] == 8)
    session.good("setBreakpoints", {"source": {"path": "/none.mms"}, "breakpoints": [{"line": 8}]}, lambda it: not it["breakpoints"][0]["verified"])
    session.good("setBreakpoints", {"source": place, "breakpoints": [{"line": 16, "condition": "k =="}]}, lambda it: not it["breakpoints"][0]["verified"])
    session.bad("setBreakpoints", {"breakpoints": [{"line": 8}]})
    session.bad("setBreakpoints", {"source": place, "breakpoints": [{"line": 8}, {}]})
    session.odd("setBreakpoints", {"source": place, "breakpoints": 8})
    names = {"breakpoints": [{"name": "Twice"}, {"name": "None"}]}
    session.good("setFunctionBreakpoints", names, lambda it: [one["verified"] for one in it["breakpoints"]] == [True, False])
    session.good("setFunctionBreakpoints", {"breakpoints": []})
    session.bad("setFunctionBreakpoints", {"breakpoints": [{"name": 5}]})
    session.good("setInstructionBreakpoints", {"breakpoints": [{"instructionReference": "0x104", "offset": 4}]}, lambda it: it["breakpoints"][0]["verified"])
    session.good("setInstructionBreakpoints", {"breakpoints": []})
    session.bad("setInstructionBreakpoints", {})
    session.good("dataBreakpointInfo", {"name": "$1"}, lambda it: it["dataId"])
    session.good("dataBreakpointInfo", {"name": "No"}, lambda it: it["dataId"] is None)
    session.bad("dataBreakpointInfo", {})
    session.good("setDataBreakpoints", {"breakpoints": [{"dataId": "$1"}, {"dataId": "x"}]}, lambda it: [one["verified"] for one in it["breakpoints"]] == [True, False])
    session.good("setDataBreakpoints", {"breakpoints": []})
    session.bad("setDataBreakpoints", {"breakpoints": {}})
    session.good("setExceptionBreakpoints", {"filters": []})
    session.good("setBreakpoints", {"source": place, "breakpoints": [{"line": 17, "condition": "$0 == 2"}]}, lambda it: it["breakpoints"][0]["verified"])
    session.good("threads", None, lambda it: len(it["threads"]) == 1)


def look_at_step(session):
    """Requests that show a step within a call."""
    frames = session.good("stackTrace", {"threadId": 1}, lambda it: it["totalFrames"] == 2 and len(it["stackFrames"]) == 2)["stackFrames"]
    if [(it["name"].partition("+")[0], it["line"]) for it in frames] != [("Twice", 17), ("Loop", 12)]:
        report("the frames of a call", frames)
    session.good("stackTrace", {"threadId": 1, "startFrame": 1, "levels": 1}, lambda it: it["stackFrames"] == frames[1:])
    session.good("stackTrace", {"threadId": 1, "startFrame": 9}, lambda it: it["stackFrames"] == [])
    session.bad("stackTrace", {"threadId": "x"})
    scopes = {it["name"]: it["variablesReference"] for it in session.good("scopes", {"frameId": frames[0]["id"]})["scopes"]}
    session.good("scopes", {"frameId": frames[1]["id"]})
    session.bad("scopes", {"frameId": 999})
    session.bad("scopes", {})
    for name in ("Locals", "Globals", "Special", "Hidden", "Symbols"):
        rows = session.good("variables", {"variablesReference": scopes[name]}, lambda it: it["variables"])["variables"]
        session.good("variables", {"variablesReference": scopes[name], "start": 1, "count": 1}, lambda it: it["variables"] == rows[1:2])
        for row in rows[:4]:
            if "evaluateName" in row:
                session.good("evaluate", {"expression": row["evaluateName"], "frameId": frames[0]["id"], "context": "watch"})
    session.bad("variables", {"variablesReference": 12345})
    session.bad("variables", {})
    session.good("evaluate", {"expression": "$0", "context": "hover"}, lambda it: it["result"].split()[0] == "2")
    session.good("evaluate", {"expression": "print Count"}, lambda it: "3" in it["result"])
    session.good("evaluate", {"expression": "info registers", "context": "repl"}, lambda it: "$0" in it["result"])
    session.bad("evaluate", {"expression": "None", "context": "hover"})
    session.bad("evaluate", {})
    text = lambda it: base64.b64decode(it["data"])  # noqa: E731
    session.good("readMemory", {"memoryReference": "0x2000000000000000", "count": 4}, lambda it: text(it) == b"ab\n\0")
    session.good("readMemory", {"memoryReference": "0x2000000000000004", "offset": -3, "count": 2}, lambda it: text(it) == b"b\n")
    session.good("readMemory", {"memoryReference": "0x100", "count": 0}, lambda it: not it.get("data"))
    session.good("readMemory", {"memoryReference": "0x8000000000000000", "count": 8}, lambda it: it["unreadableBytes"] == 8)
    session.bad("readMemory", {"memoryReference": "no such", "count": 8})
    session.bad("readMemory", {"memoryReference": "0x100"})
    rows = session.good("disassemble", {"memoryReference": "0x104", "instructionOffset": -1, "instructionCount": 3}, lambda it: len(it["instructions"]) == 3)
    if [int(it["address"], 16) for it in rows["instructions"]] != [0x100, 0x104, 0x108] or not rows["instructions"][2]["instruction"].startswith("TRAP"):
        report("instructions in their order", rows)
    session.bad("disassemble", {"memoryReference": "0x104"})
    session.good("pause", {"threadId": 1})
    session.good("loadedSources", None, lambda it: len(it["sources"]) == 1)
    session.odd("exceptionInfo", {"threadId": 1})
    session.good("cancel", {"requestId": 1})
    session.odd("source", {"sourceReference": 77})


def go_both_ways(session):
    """Requests that go to another step, both ways, up to the end and back from there. Breaks within a call stop what goes over it."""
    session.stop("step", 15, "stepOut")
    session.stop("breakpoint", 13, "stepBack")
    session.stop("step", 12, "stepBack")
    session.stop("breakpoint", 13, "next")
    session.stop("step", 14, "stepIn", granularity="instruction")
    session.stop("breakpoint", 13, "stepBack", granularity="instruction")
    session.stop("entry", 0, "reverseContinue")
    session.stop("entry", 0, "stepBack")
    for step in (1, 2, 3, 4, 7):
        session.stop("step", step, "next")
    session.stop("step", 4, "stepBack")
    session.stop("breakpoint", 13, "continue")
    session.stop("end", 27, "continue")
    if session.written() != "ab\n" * 5:
        report("what was written, some of it twice", repr(session.written()))
    session.stop("step", 26, "stepBack")
    session.stop("breakpoint", 13, "reverseContinue")
    session.good("evaluate", {"expression": "goto 20", "context": "repl"})
    session.stop("goto", 20)
    session.stop("end", 27, "continue")


def try_source(schema, folder):
    """The whole session of a source."""
    path = os.path.join(folder, "text.mms")
    with open(path, "w", encoding="ascii") as out:
        out.write(SOURCE)
    session = Session(schema)
    ask_too_early(session)
    session.bad("launch", {"program": os.path.join(folder, "none.mms")})
    session.wait("terminated")
    session.bad("launch", {"program": path, "steps": "many"})
    session.events.clear()
    session.good("launch", {"program": path, "args": ["a"], "stopOnEntry": True})
    session.wait("initialized")
    set_breaks(session, path)
    session.stop("entry", 0, "configurationDone")
    session.stop("step", 1, "stepIn")
    session.stop("step", 2, "next")
    session.stop("breakpoint", 13, "continue")
    look_at_step(session)
    go_both_ways(session)
    session.events.clear()
    session.good("continue", {"threadId": 1})
    if session.wait("exited")["body"]["exitCode"] != 7:
        report("the status is 7")
    session.wait("terminated")
    session.good("terminate")
    session.good("disconnect", {"restart": False, "terminateDebuggee": True})
    if session.close() != 0:
        report("the status after disconnect is 0")


def try_run(schema, path, reason, **more):
    """A session that only runs: its reason to stop, or that it ends."""
    session = Session(schema)
    session.good("initialize", {"adapterID": "mmix"})
    session.good("launch", {"program": path, **more})
    session.wait("initialized")
    session.good("configurationDone")
    got = session.wait("stopped", "terminated")
    if got.get("body", {}).get("reason") != reason:
        report("%s %s stops by %s" % (path, more, reason), got)
    if reason == "exception":
        session.good("exceptionInfo", {"threadId": 1}, lambda it: it["description"])
    session.good("disconnect")
    session.close()


def try_others(schema, folder):
    """Sessions of other programs."""
    for name, text in (("faulty.mms", FAULTY), ("stopped.mms", STOPPED), ("endless.mms", ENDLESS)):
        with open(os.path.join(folder, name), "w", encoding="ascii") as out:
            out.write(text)
    session = Session(schema)
    session.good("initialize", {"adapterID": "mmix"})
    session.bad("launch", {"program": os.path.join(folder, "faulty.mms")})
    told = session.written("stderr")
    if "line 8" not in told or "line 12" not in told:
        report("all faults of a source are told", told)
    session.wait("terminated")
    session.good("disconnect")
    session.close()
    try_run(schema, os.path.join(folder, "text.mms"), None, noDebug=True)
    try_run(schema, os.path.join(folder, "text.mms"), None, stopAtEnd=False)
    try_run(schema, os.path.join(folder, "stopped.mms"), "exception")
    try_run(schema, os.path.join(folder, "endless.mms"), "pause", steps=1000)
    try_run(schema, os.path.join(folder, "endless.mms"), "pause")


def try_object(schema, folder):
    """A session of an object, whose text the adapter gives."""
    path = os.path.join(folder, "text.mmo")
    if subprocess.run([MMIXWARE, "asm", os.path.join(folder, "text.mms"), path], stdin=subprocess.DEVNULL).returncode != 0:
        print("checks/dap: mmixware is not beside mmixview: no object is tried")
        had["good"].add("source")
        return
    session = Session(schema)
    session.good("initialize", {"adapterID": "mmix"})
    session.good("launch", {"program": path, "stopOnEntry": True})
    session.wait("initialized")
    session.stop("entry", 0, "configurationDone")
    top = session.good("stackTrace", {"threadId": 1})["stackFrames"][0]
    source = session.good("source", {"source": top["source"], "sourceReference": top["source"]["sourceReference"]}, lambda it: "LDO" in it["content"])
    if "LDO" not in source["content"].split("\n")[top["line"] - 1]:
        report("the line of an instruction", (top, source))
    session.good("setBreakpoints", {"source": top["source"], "breakpoints": [{"line": top["line"] + 1}]}, lambda it: it["breakpoints"][0]["verified"])
    session.stop("breakpoint", 1, "continue")
    session.good("disconnect")
    session.close()


def try_no_messages():
    """Streams that are no messages end the adapter with status 1."""
    for bad in (b"Content-Type: x\r\n\r\n{}", b"Content-Length: 67108865\r\n\r\n", wire.frames.frame(b"{"), b"x" * 5000, wire.frames.frame(b"\xff")):
        out, status = wire.frames.session([PROGRAM, "dap"], bad)
        if status != 1 or [it.get("event") for it in wire.bodies(out)[0]][-1:] != ["terminated"]:
            report("%r is no message" % bad[:40], (status, out))


def main():
    """All sessions."""
    try:
        schema = protocol.Schema()
    except protocol.Missing:
        print("checks/dap: python3-debugpy is missing: no message is held against the schema")
        return 0
    with tempfile.TemporaryDirectory() as folder:
        for part in (try_source, try_others, try_object):
            try:
                part(schema, folder)
            except (EOFError, KeyError, IndexError, TypeError, ValueError) as fault:
                report("%s goes to its end" % part.__name__, repr(fault))
    try_no_messages()
    for name in sorted(REQUESTS - had["good"]):
        report("there is a good %s" % name)
    for name in sorted(REQUESTS - had["bad"] - {"initialize", "threads", "setExceptionBreakpoints", "cancel", "terminate", "disconnect"}):
        report("there is a bad %s" % name)
    for name in sorted(EVENTS - had["events"]):
        report("there is the event %s" % name)
    return 1 if reported else 0


sys.exit(main())
