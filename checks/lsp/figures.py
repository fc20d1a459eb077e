#!/usr/bin/env python3
"""How long `mmixview lsp` takes: diagnostics after a change, hover, and what it holds after many messages.

usage: checks/lsp/figures.py [PROGRAM]
"""
import os
import sys

HERE = os.path.dirname(os.path.dirname(os.path.dirname(os.path.abspath(__file__))))
sys.path.insert(0, os.path.join(HERE, "checks", "lsp"))
import wire  # noqa: E402
from frames import held, least  # noqa: E402

PROGRAM = wire.program(sys.argv[1:])
URI = "file:///text.mms"


def text_of(lines):
    """A good source of so many lines."""
    rows = ["\tLOC #100", "Main\tSETL $1,10"]
    for n in range(lines - 3):
        rows.append("L%d\tADDU $1,$1,%d\tline %d" % (n, n % 256, n))
    return "\n".join(rows + ["\tTRAP 0,Halt,0", ""])


BLOCK = """Data%(n)d	GREG	@
Text%(n)d	BYTE	"a text",10,0
Cell%(n)d	OCTA	%(n)d
"""

CALL = """Work%(n)d	GET	$1,rJ
	LDO	$2,Cell%(m)d
	SET	$3,10
1H	ADDU	$2,$2,$3
	SUBU	$3,$3,1
	PBNZ	$3,1B
	STO	$2,Cell%(m)d
	LDA	$255,Text%(m)d
	TRAP	0,Fputs,StdOut
	PUT	rJ,$1
	POP	1,0
"""


def program_of(lines):
    """A source like a program: data with bases, subroutines that are called, local labels."""
    text = "\tLOC\tData_Segment\n" + "".join(BLOCK % {"n": n} for n in range(4)) + "\tLOC\t#100\n"
    count = (lines - 16) // 12
    text += "".join(CALL % {"n": n, "m": n % 4} for n in range(count))
    return text + "Main\tSET\t$0,0\n" + "".join("\tPUSHJ\t$1,Work%d\n" % n for n in range(count)) + "\tTRAP\t0,Halt,0\n"


def main():
    """All figures."""
    server = wire.Server(PROGRAM)
    server.ask("initialize", {"capabilities": {}})
    small, large = text_of(500), text_of(45000)
    server.open(URI, small)
    print("diagnostics of 500 lines: %.1f ms" % least(20, lambda: server.change(URI, small)))
    print("hover in 500 lines: %.1f ms" % least(20, lambda: server.at("hover", URI, 250, 8)))
    program = program_of(500)
    print("diagnostics of a program of %d lines: %.1f ms" % (program.count("\n"), least(20, lambda: server.change(URI, program))))
    print("hover on a name of it: %.1f ms" % least(20, lambda: server.at("hover", URI, 20, 12)))
    server.change(URI, small)
    faulty = small.replace("line 100", "line 100\n\tADD $1,$1,1000").replace("line 200", "line 200\n\tFOO 1")
    print("diagnostics of 500 lines with 2 faults: %.1f ms" % least(10, lambda: server.change(URI, faulty)))
    print("diagnostics of %d bytes: %.0f ms" % (len(large), least(3, lambda: server.change(URI, large))))
    server.change(URI, "Main TRAP 0,Halt,0\n")
    for _ in range(1000):
        server.at("hover", URI, 0, 6)
    before = held(server)
    for _ in range(100000):
        server.at("hover", URI, 0, 6)
    print("held: %d kB after 1000 messages, %d kB after 101000" % (before, held(server)))
    server.end()


main()
