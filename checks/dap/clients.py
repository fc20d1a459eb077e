#!/usr/bin/env python3
"""Editors as clients of `mmixview dap`: what each shows of a run, forward and back, is compared with `mmixware run --steps k --dump`.

usage: checks/dap/clients.py [PROGRAM [PICTURE]]
The program mmixware has to be beside PROGRAM. It installs nothing, and says which editors are missing. PICTURE is a file for a picture of Kate.
"""
import base64
import json
import os
import re
import shutil
import subprocess
import sys
import tempfile

HERE = os.path.dirname(os.path.dirname(os.path.dirname(os.path.abspath(__file__))))
sys.dont_write_bytecode = True
sys.path[:0] = [os.path.join(HERE, "checks", "dap"), os.path.join(HERE, "checks", "model")]
import kate  # noqa: E402
import wire  # noqa: E402
from runs import Words, run_steps  # noqa: E402

PROGRAM = wire.program(sys.argv[1:])
PICTURE = sys.argv[2] if len(sys.argv) > 2 else None
MMIXWARE = os.path.join(os.path.dirname(PROGRAM), "mmixware")
DATA = 0x2000000000000000
BREAK = 10
SOURCE = """* prints a line three times, with a call after each
        LOC   Data_Segment
        GREG  @
Text    BYTE  "ab",#a,0
Count   OCTA  3
k       IS    $0
        LOC   #100
Main    LDO   k,Count
Loop    LDA   $255,Text
        TRAP  0,Fputs,StdOut
        STO   k,Count
        SET   $2,k
        PUSHJ $1,Twice
        SUB   k,k,1
        PBP   k,Loop
        SET   $255,7
        TRAP  0,Halt,0
Twice   ADDU  $0,$0,$0
        POP   1,0
"""
# what is asked for, and the line and the step that it leads to, with a break at line 10
WAY = (
    ("launch", 8, 0),
    ("continue", 10, 2),
    ("stepIn", 11, 3),
    ("continue", 10, 11),
    ("next", 11, 12),
    ("next", 12, 13),
    ("next", 13, 14),
    ("stepIn", 18, 15),
    ("stepOut", 14, 17),
    ("stepBack", 13, 14),
    ("reverseContinue", 10, 11),
    ("stepBack", 9, 10),
    ("continue", 10, 11),
    ("continue", 10, 20),
)
COMMANDS = {"continue": "c", "next": "n", "stepIn": "in", "stepOut": "o"}


class Missing(Exception):
    """A part of a client that is not there."""


def run_source(source, step):
    """What so many steps leave."""
    return run_steps(MMIXWARE, Words([], source, []), step, b"", os.path.dirname(source))


def try_emacs(source, folder):
    """What is not so of emacs with dap-mode."""
    target = os.path.join(folder, "told.json")
    more = {
        "HOME": folder,
        "MMIXVIEW": PROGRAM,
        "MMIXAL_DAP": os.path.join(HERE, "editors", "emacs", "mmixal-dap.el"),
        "SOURCE": source,
        "LINE": str(BREAK),
        "REQUESTS": " ".join(it[0] for it in WAY),
        "TARGET": target,
    }
    words = ["emacs", "--batch", "-l", os.path.join(HERE, "checks", "dap", "dapmode.el")]
    run = subprocess.run(words, env={**os.environ, **more}, cwd=folder, timeout=120, stdin=subprocess.DEVNULL, stdout=subprocess.PIPE, stderr=subprocess.PIPE)
    if not os.path.exists(target):
        return ["emacs ends with %d: %s" % (run.returncode, run.stderr.decode(errors="replace")[-500:])]
    with open(target, encoding="utf-8") as file:
        told = json.load(file)
    if "missing" in told:
        raise Missing(told["missing"])
    if "stops" not in told:
        return [str(told)]
    return [wrong for asked, stop in zip(WAY, told["stops"]) for wrong in compare_emacs(asked, stop, source)]


def compare_emacs(asked, stop, source):
    """What is not so of a stop that emacs shows: the line of the cursor, all registers, and memory."""
    command, line, step = asked
    if stop["file"] != source or stop["line"] != line:
        yield "%s leads to line %d: %s:%s" % (command, line, stop["file"], stop["line"])
    rows = re.findall(r"^ *(\$\d+|r[A-Z]{1,2})(?: \(.*\))?: (.*)$", stop["variables"], re.M)
    shown = {name: wire.octa_of(value) for name, value in rows}
    if shown.get("rC") != step:
        yield "%s leads to step %d: %s" % (command, step, shown.get("rC"))
    if step == 0:
        return
    right = run_source(source, step)
    for name, octa in right.registers.items():
        if shown.get(name) != octa:
            yield "after step %d %s is %d: %s" % (step, name, octa, shown.get(name))
    data = base64.b64decode(stop["memory"])
    for at in range(0, len(data), 8):
        if int.from_bytes(data[at : at + 8], "big") != right.memory.get(DATA + at, 0):
            yield "after step %d the octa at %x differs" % (step, DATA + at)
    if not stop["output"].startswith(right.output.decode()):
        yield "after step %d the output is %s: %s" % (step, right.output, stop["output"])


def try_kate(source, folder):
    """What is not so of Kate, which has no words to go back."""
    with kate.Kate(PROGRAM, os.path.join(HERE, "editors", "kate", "dap.json"), source, folder) as client:
        try:
            wrong = list(compare_kate(client, source))
        finally:
            if PICTURE:
                client.picture(PICTURE)
    return wrong


def compare_kate(client, source):
    """What is not so of the stops that Kate shows: the line of the frame, some registers, and memory."""
    first = client.begin()
    if "%s:8" % source not in first:
        yield "it begins at line 8: %r" % first
    client.tell("b %d" % BREAK, "breakpoint set")
    names = ["$0", "$1", "$255", "rJ", "rC", "M#%x" % (DATA + 8)]
    for command, line, step in WAY[1:9]:
        text = client.tell(COMMANDS[command], r"Current frame \[0\][^\n]*")
        if not re.search(r"\(step %d\)" % step, text) or "%s:%d " % (source, line) not in text:
            yield "%s leads to line %d and step %d: %r" % (command, line, step, text)
        right = run_source(source, step)
        for name in names:
            told = client.tell("p " + name, r"\) = .+")
            value = wire.octa_of(told.rpartition(" = ")[2])
            wanted = right.memory.get(DATA + 8, 0) if name.startswith("M") else right.registers.get(name, 0)
            if value != wanted:
                yield "after step %d %s is %d: %r" % (step, name, wanted, told)


CLIENTS = (
    ("emacs", try_emacs, lambda: None if shutil.which("emacs") else "emacs"),
    ("Kate", try_kate, kate.find_missing),
)


def main():
    """All clients."""
    if not os.path.exists(MMIXWARE):
        print("checks/dap: mmixware is not beside mmixview; nothing is tried")
        return 0
    wrong = 0
    for name, call, missing in CLIENTS:
        try:
            part = missing()
            if part:
                raise Missing(part)
            with tempfile.TemporaryDirectory() as folder:
                source = os.path.join(folder, "text.mms")
                with open(source, "w", encoding="ascii") as out:
                    out.write(SOURCE)
                found = call(source, folder)
        except Missing as part:
            print("%s: %s is missing: not tried" % (name, part))
            continue
        except (OSError, subprocess.SubprocessError, ValueError, KeyError, TypeError) as fault:
            found = ["no answer: %r" % fault]
        for it in found:
            print("%s: %s" % (name, it))
        wrong += len(found)
        if not found:
            print("%s: as it is to be" % name)
    return 1 if wrong else 0


sys.exit(main())
