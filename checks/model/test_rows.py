#!/usr/bin/env python3
"""Worked rows of the model: values from the books, or worked out by hand.

In a source `/` ends a line and `_` at the start of a line is a leading blank. Runs are over a host in memory. Prints
what fails, and then `N passed, M failed`.
"""
import sys

from mmixmodel import alu, lines, trie
from mmixmodel.encoding import Knowledge
from mmixmodel.expressions import Value, pure, read_operands, value_of
from mmixmodel.faults import Fault
from mmixmodel.hosts import MemoryHost
from mmixmodel.machine import Machine
from mmixmodel.assembler import Assembly
from mmixmodel.program import mmixware
from mmixmodel.stack import WindowStack
from rows import (ASTRAY, BAD_OBJECTS, CONSOLE_OUTPUT, COUNTER, FIRST, FIRST_OBJECT, FRAME, HELLO, HELLO_OBJECT, INSERTION_END,
                  LINE, LOCK, LOST, OVERFLOW, PLACED, RECURSION, REFUSALS, SMALL_OBJECT, SPILL, SUM)

BASE = 0x6 << 60
counts = [0, 0]


def check(name, got, wanted):
    """Counts one row, and prints where it is wrong."""
    counts[got != wanted] += 1
    if got != wanted:
        print(f"{name}:\n  got    {got!r}\n  wanted {wanted!r}")


def source_of(text):
    """The bytes of a source from its row."""
    rows = [" " + row[1:] if row.startswith("_") else row for row in text.split("/")]
    return ("\n".join(rows) + "\n").encode("latin-1") if text else b""


def plain(text):
    """The bytes of a hexadecimal row."""
    return bytes.fromhex(text.replace(" ", ""))


class Ran:
    """The program on one file p.mms or p.mmo, with the outcome and what it leaves."""

    def __init__(self, data, words="run --steps 9999 p.mms", given=b"", failing=(), kind="window"):
        self.words = words.split()
        name = next((it for it in self.words if it.endswith((".mms", ".mmo"))), "p.mms")
        self.host = MemoryHost(given, failing, {} if data is None else {name.encode(): data})
        self.outcome = mmixware(self.words, self.host, kind)
        self.output = bytes(self.host.output).decode("latin-1")
        self.errors = bytes(self.host.errors).decode("latin-1")

    def shown(self):
        """Outcome and output."""
        return (self.outcome.kind, *self.outcome.values), self.output


def run(text, words="run --steps 9999 p.mms", given=b"", failing=(), kind="window"):
    """Runs a source row."""
    return Ran(source_of(text), words, given, failing, kind)


def outcome(text, words="run --steps 9999 p.mms", given=b"", failing=(), kind="window"):
    """The outcome of a source row."""
    return run(text, words, given, failing, kind).shown()[0]


def image_tetra(text, address):
    """A tetra of the two-pass meaning of a source."""
    assembly = Assembly(source_of(text))
    return assembly.refusal or f"{assembly.image().memory.tetra(address):08x}"


def assembled(text):
    """The object of a source row, with the outcome."""
    ran = run(text, "asm p.mms p.mmo")
    return (ran.outcome.kind, *ran.outcome.values), bytes(ran.host.files[b"p.mmo"])


def dump(text, words="run --steps 9999 --dump p.mms", **more):
    """The lines of the dump, as a mapping."""
    rows = [row.rsplit("=", 1) for row in run(text, words, **more).output.splitlines() if "=#" in row]
    return dict(rows)


def octa(number):
    """An octa as the dump shows it."""
    return f"#{number % (1 << 64):016x}"


def value(text, back=None):
    """The value of an expression over a machine without labels, or its fault."""
    known = Knowledge()
    known.last_locals = back or {}
    try:
        found = [value_of(it, known) for it in read_operands(text.encode("latin-1"))]
        return found[0] if len(found) == 1 else found
    except Fault as fault:
        return fault.number


def fault_of_line(text):
    """The fault of cutting one line, or the number of its statements."""
    found, fault = lines.statements_of_line(text.encode("latin-1"), 1)
    return ("fault", fault) if fault else len(found)


def test_first_programs():
    """A text is printed from its source, from its object, and with arguments."""
    check("first", run(FIRST, "run first.mms").shown(), (("Done", 3), "hi\n"))
    check("first tetra", image_tetra(FIRST, 0x104), "f5ffffff")
    check("hello", run(HELLO, "run hello.mms").shown(), (("Done", 8), "hello, world\n"))
    check("hello tetras", [image_tetra(HELLO, 0x100 + 4 * it) for it in range(5)],
          "8fff0100 00000701 f4ff0003 00000701 00000000".split())
    check("hello object", assembled(HELLO), (("Done", 0), plain(HELLO_OBJECT)))
    check("first object", assembled(FIRST), (("Done", 0), plain(FIRST_OBJECT)))
    check("hello runs", Ran(plain(HELLO_OBJECT), "sim hello.mmo").shown(), (("Done", 8), "hello, world\n"))
    check("none", Ran(None, "run none.mms").shown()[0], ("NoFile",))
    check("failing", run(FIRST, failing=[1]).shown(), (("HostFault",), ""))
    check("failing message", run(FIRST, failing=[1]).errors, "host fault\n")
    wanted = [0x4000000000000030, 0x4000000000000020, 0x4000000000000028, 0, 0x70 << 56, 0x6162 << 48]
    machine = Machine(Assembly(source_of(FIRST)).image(), [b"p", b"ab"])
    check("pool", [machine.octa(0x4000000000000000 + 8 * it) for it in range(6)], wanted)
    check("argument count", machine.stack.get(0), 2)
    check("name without ending", dump(FIRST, "run --dump p.mms ab")["$0"], octa(2))
    for number, text in ((1, "blocks 1 bytes 222 steps 290 sum 33923\n"),
                         (10, "blocks 10 bytes 854 steps 12571 sum 450159\n")):
        for ring in (256, 512, 1024):
            check("gen", Ran(None, f"gen --ring {ring} {number}").shown(), (("Done", 0), text))
    check("gen list", Ran(None, "gen 1", kind="list").shown()[0], ("Done", 0))


def test_refusals():
    """A refused source names its first fault."""
    for text, (line, fault, from_line) in REFUSALS.items():
        check(text[:60], outcome(text), ("Refused", line, fault, from_line))
    for text in ("Main BZ $0,x/_LOC Main+4*65535/x TRAP 0,Halt,0", "_PREFIX p:/:Main TRAP 0,:Halt,0"):
        check(text, outcome(text), ("Done", 0))
    messages = {"Main BZ $0,x/_LOC Main+4*65536/x SWYM": "line 3: 85 FutureTooFar from line 1\n",
                "Main SWYM/_SWYM/_JMP x": "line 3: 80 UndefinedSymbol\n"}
    for text, message in messages.items():
        check(text, run(text).errors, message)
    check("4,000 signs", outcome("Main IS " + "-" * 4000 + "0"), ("Done", 0))
    big = b"*" * 4000 + b"\n"
    check("88", Ran(big * 1050).shown()[0], ("Refused", 1049, 88, 0))
    whole = (b"*" * 4095 + b"\n") * 1023 + b"*" * 4096
    check("just 2^22", Ran(whole + b"\n").shown()[0], ("Refused", 1024, 82, 0))
    check("past 2^22", Ran(whole + b"\n\n").shown()[0], ("Refused", 1025, 88, 0))


def test_bytes():
    """What statements place."""
    for text, address, tetra in PLACED:
        check(text, image_tetra(text, address), tetra)
    locals_row = "Main SWYM/2H JMP 2F/2H JMP 2B"
    check("local labels", [image_tetra(locals_row, 4 * it) for it in range(3)], "fd000000 f0000001 f1ffffff".split())
    check("local labels run", outcome(locals_row, "run --steps 10 p.mms"), ("StepsSpent", 10))
    check("one step", outcome("Main TRAP 0,Halt,0", "run --steps 1 p.mms"), ("Done", 0))
    check("overlaid", outcome("Main BYTE 1/_LOC 0/_BYTE 3/_TETRA #98000000"), ("Stopped", 0, 110))
    check("ten steps", run(locals_row, "run --steps 10 p.mms").errors, "10 steps spent\n")


def test_objects():
    """Records of later labels, quoted tetras, what there is of a refused source, and faults of objects."""
    found = assembled("_LOC #200/Main BZ $0,x/_LOC #100/x TRAP 0,Halt,0")[1].hex()
    check("fixrx", "9801000100000100980500100100ffc0" in found, True)
    check("quoted", "9800000198000000" in assembled("Main BYTE 1/_LOC 0/_BYTE 3/_TETRA #98000000")[1].hex(), True)
    check("fixo", "9803200100000000" in assembled(LINE)[1].hex(), True)
    wanted = "98090101 00000000 98060001 2e6d6d73 98010001 00000100 98070002 fd000000"
    check("refused object", assembled("_LOC #100/Main SWYM/_FROB"), (("Refused", 3, 39, 0), plain(wanted)))
    check("empty source", assembled(""), (("Refused", 1, 82, 0), plain(wanted)[:16]))
    check("small object", Ran(plain(SMALL_OBJECT), "sim p.mmo").shown()[0], ("Done", 0))
    for text, (place, fault) in BAD_OBJECTS.items():
        check(text, Ran(plain(text), "sim p.mmo").shown()[0], ("BadObject", place, fault))
    whole = plain(HELLO_OBJECT)
    for length in range(124):
        wanted = ("BadObject", length // 4 * 4, 60) if length % 4 else ("BadObject", length, 64)
        check(f"first {length} bytes", Ran(whole[:length], "sim p.mmo").shown()[0], wanted)
    check("more zeros", Ran(whole + bytes(4), "sim p.mmo").shown()[0], ("BadObject", 128, 64))
    check("another end", Ran(whole + plain("980c000a"), "sim p.mmo").shown()[0], ("BadObject", 124, 63))
    timed = plain("98090101 36f4a363 98010001 00000100 00000000 980a00ff 00000000 00000100 980b0000 203a4040 10404020 "
                  "4d206120 69016e00 81000000 980c0005")
    lines = ("pre 36f4a363\nloc #0000000000000100\n#0000000000000100 00000000 TRAP 0,0,0\npost 255 #0000000000000100\n"
             "stab 203a4040104040204d20612069016e0081000000\nsymbol :Main #0000000000000000 1\n")
    check("listed object", Ran(timed, "type p.mmo").shown(), (("Done", 0), lines))
    check("listed to a fault", Ran(plain("98090101 00000000 980d0000"), "type p.mmo").shown(),
          (("BadObject", 8, 62), "pre 00000000\n"))
    check("line not written", Ran(timed, "type p.mmo", failing=(5,)).shown(),
          (("HostFault",), "pre 36f4a363\nloc #0000000000000100\n"))


def test_corners():
    """Corners of sources and objects."""
    rows = {"_GREG @/Main LDO $0,5": ("Refused", 2, 44, 0), "_PREFIX (a)/:Main TRAP 0,0,0": ("Done", 0),
            "_LOC #7000000000000000/_LOC 0/Main TRAP 0,0,0": ("Done", 0), "_PREFIX " + "k" * 1024: ("Refused", 1, 33,
                                                                                                    0),
            "Main IS 0/_LOC #6000000000000000/x SWYM": ("Refused", 3, 49, 0), "x/Main SWYM": ("Refused", 1, 7, 0),
            "_BYTE 1;x BYTE;y BYTE 256": ("Refused", 1, 43, 0), "_LOC #100/Main TRAP 0,0,0;* FROB": ("Done", 0),
            "Main JMP x;_OCTA x;x IS 6": ("Refused", 1, 39, 0), "Main JMP x; OCTA x;x IS 6": ("Refused", 1, 89, 1),
            "Main JMP 1F/1H IS 6": ("Refused", 2, 89, 1), "Main OCTA 1F/1H IS $6": ("Refused", 2, 84, 1),
            "Main JMP 1F/1H IS $6": ("Refused", 2, 84, 1), "Main JMP 1F/1H IS #8000000": ("Refused", 2, 85, 1)}
    for text, wanted in rows.items():
        check(text[:60], outcome(text), wanted)
    check("shared GREG", Assembly(source_of("_GREG 5/_GREG 5/_GREG 6/_GREG 0/_GREG 0/Main SWYM")).known.gregs,
          {254: 5, 253: 6, 252: 0, 251: 0})
    for lines_between, wanted in ((2, "98070001fd00000098070004fd000000"), (70000, "98070001fd00000098070000fd000000"),
                                  (65533, "98070001fd0000009807fffffd000000"), (0, "98070001fd000000fd000000fd000000")):
        made = assembled("_SWYM/" + "/" * lines_between + "Main SWYM/_SWYM")[1].hex()
        check(f"line {lines_between}", made[32:32 + len(wanted)], wanted)
    check("odd label", assembled("Main OCTA x/_LOC #101/x BYTE 7")[1].hex()[32:112], "98070001" + "0" * 16 +
          "9801000100000101" + "9803000100000000" + "00070000" + "980a00ff00000000")


def test_machine_corners():
    """Corners of the machine."""
    negative = "Main SETH $1,#8000/_GO $2,$1,0"
    check("GO", (outcome(negative), dump(negative)["rC"]), (("Stopped", 1 << 63, 113), octa(2)))
    rows = {"Main SETH $1,#8000/_PRELD 1,$1,0/_SYNCD 1,$1,0/_TRAP 0,0,0": ("Done", 0),
            "Main SETH $1,#8000/_LDUNC $2,$1,0": ("Stopped", 4, 113), "Main SETH $1,#8000/_STUNC $2,$1,0": ("Stopped",
                                                                                                            4, 113),
            "Main SETH $1,#6080/_UNSAVE 0,$1": ("Stopped", 4, 116), "Main SETH $1,#8000/_UNSAVE 0,$1": ("Stopped", 4,
                                                                                                        116),
            "Main GET $5,rL/_SET $255,$5/_TRAP 0,0,0": ("Done", 6), "Main LDVTS $1,$2,$3": ("Stopped", 0, 112),
            "Main PUT rK,1": ("Stopped", 0, 112), "Main PUT rN,1": ("Stopped", 0, 111), "Main SYNC 4": ("Stopped", 0,
                                                                                                        112),
            "Main SYNC 8": ("Stopped", 0, 111), "Main PUT rG,1": ("Stopped", 0, 111), "Main GET $1,32": ("Stopped", 0,
                                                                                                         111),
            "Main SETML $1,4/_PUT rA,$1": ("Stopped", 4, 111), "Main SAVE $1,0": ("Stopped", 0, 111)}
    for text, wanted in rows.items():
        check(text, outcome(text), wanted)
    zero = "_LOC #20/_TRAP 0,Halt,0/_LOC #100/" + OVERFLOW.split("/", 4)[4]
    check("handler of 0", outcome(zero)[2], 117)
    into = dump(OVERFLOW.replace("_ADD $0,$0,1", "_ADD $255,$0,1"))
    check("trip into $255", (into["rB"], into["rX"]), (octa(1 << 63), octa(0x8000000021FF0001)))
    wide = "Main SETL $254,1/_PUSHJ $255,@+4/_GET $254,rO/_TRAP 0,0,0"
    check("256 hidden", dump(wide)["$254"], octa(BASE + 8 * 256))
    float_kind = "Main SETH $2,#0100/_INCML $2,#0409/_PUT rX,$2/_RESUME 0"
    check("kind 1 and float", outcome(float_kind), ("Stopped", 12, 111))
    check("kind 1 and float, local", outcome(float_kind.replace("0409", "0401")), ("Stopped", 12, 110))
    check("kind 0 and TRAP", outcome("Main SETH $2,#0000/_PUT rX,$2/_RESUME 0"), ("Stopped", 8, 120))
    check("kind 0 and RESUME", outcome("Main SETL $2,0/_INCML $2,#f900/_PUT rX,$2/_RESUME 0"), ("Stopped", 12, 111))
    check("kind 2, bits", outcome("Main SETH $2,#0200/_INCMH $2,#0100/_PUT rX,$2/_RESUME 0"), ("Stopped", 12, 120))
    for size, calls in ((0, 1), (1, 1), (4096, 1), (4097, 2), (8192, 2)):
        text = (f"_LOC #2000000000000000/_GREG @/a OCTA #100,{size}/_LOC #100/Main LDA $255,a/_TRAP 0,Fwrite,StdOut/"
                "_TRAP 0,Halt,0")
        ran = run(text)
        check(f"Fwrite {size}", (ran.host.calls - 3, len(ran.output), ran.outcome.values), (calls, size, (0,)))


def trie_answer(data):
    """The symbols of a trie, or its fault with the place."""
    try:
        return trie.read_trie(data)
    except Fault as fault:
        return fault.number, fault.place


def test_tries():
    """Symbols of objects, in one and two bytes a character."""
    row = plain("20 3a 40 40 10 40 40 20 4d 20 61 20 69 01 6e 00 81 00 00 00")
    check("one symbol", trie_answer(row), [(b":Main", pure(0), 1)])
    check("cut", trie_answer(row[:16]), (70, 16))
    check("not padded", trie_answer(row[:-1] + b"\1"), (71, 17))
    wide = plain("20 3a 81 00 e9 05 81 00")
    check("wide character", trie_answer(wide), [(b":\xc3\xa9", pure(5), 1)])
    check("written", trie.trie_of(trie_answer(wide)), plain("20 3a 20 c3 01 a9 05 81"))
    check("surrogate", trie_answer(wide.replace(b"\0\xe9", b"\xd8\0")), (72, 2))
    check("no character", trie_answer(plain("20 3a 90 00")), (72, 2))
    check("one byte of two", trie_answer(plain("203a81d8")), (70, 4))
    check("long", trie_answer(b"\x40" * 262140), (70, 262140))
    check("nothing", trie_answer(b""), [])
    check("no symbol", trie_answer(bytes(4)), [])
    check("four zeros more", trie_answer(bytes(5)), (71, 1))
    check("twice", trie_answer(plain("50 01 61 00 81 01 61 00 81 00 00 00"))[0] in (70, 71, 73), True)
    check("same name", trie_answer(plain("41 01 61 00 81 61 00 82")), (73, 0))
    check("serial", trie_answer(plain("01 61 00 10 00 00 00 80")), (76, 0))
    check("big serial", trie_answer(plain("01 61 00 0f 7f 7f 7f ff")), [(b"a", pure(0), (1 << 32) - 1)])
    path = b"".join(bytes([0x20, 0x61]) for _ in range(1024)) + b"\x01\x61\x00\x81"
    check("long name", trie_answer(path), (74, 2048))
    check("data segment", trie_answer(plain("0a 61 01 02 81 00 00 00")), [(b"a", pure((1 << 61) + 0x102), 1)])
    check("register", trie.trie_of([(b":a", Value(True, 1), 1)]), plain("203a0f61 01810000"))


def test_values():
    """Expressions, and their faults."""
    rows = {"1+2*3": 7, "1//3": 0x5555555555555555, "-1>>60": 15, "2*3+4<<1": 14, "$5-$2": 3, "#1f": 31, "#1F": 31,
            "#2B": 43, "007": 7, "'a'": 97, "'''": 39, "';'": 59, "@": 0, "~0": (1 << 64) - 1, "1<<64": 0, "1>>64": 0,
            "7%4|8^1": 10, "6&3+1": 3, "(1+2)*3": 9, "--1": 1, "18446744073709551615": (1 << 64) - 1, "1B": 0,
            "2+-3": (1 << 64) - 1}
    for text, number in rows.items():
        check(text, value(text), pure(number))
    faults = {"7-$2": 16, "1/0": 12, "3//3": 13, "$1*2": 14, "$1+$2": 15, "$256": 21, "18446744073709551616": 11,
              "1,,2": 10, "12B": 10, "18446744073709551616B": 11, "2Bx": 10, "2BF": 10, "$1/0": 14, "$1//0": 14,
              "$0-1": 21, "1F": 17, "x": 17, "1%0": 12, "-$1": 14, "$$1": 14, "#10000000000000000": 11, "#": 10,
              "1+": 10, "(1": 10, "1)": 10, "\"\"": 19, "1\"\"": 10, "\"\",1": 19, "99999999999999999999x": 11,
              "1<2": 10, "''": 10, "1 2": 10}
    for text, number in faults.items():
        check(text, value(text), number)
    check("$5+(0-1)", value("$5+(0-1)"), Value(True, 4))
    check("$1B", value("$1B", {1: pure(7)}), Value(True, 7))
    check("string", value('"ab",1'), [pure(97), pure(98), pure(1)])
    check("plus", value("+$1"), Value(True, 1))


def test_lines():
    """Statements of a line."""
    cut = lines.next_statement(b"a SET 1;b SET 2 ;c", 0)
    check("first cut", cut, (lines.Fields(1, b"a", b"SET", b"1"), 8))
    cut = lines.next_statement(b"a SET 1;b SET 2 ;c", 8)
    check("second cut", cut, (lines.Fields(1, b"b", b"SET", b"2"), 17))
    faults = {"a SET 1;b SET 2 ;c": 7, "2X,": 3, "2H,": 2, "a *x": 7, "a ;": 7, "a;": 2, "2X SWYM": 3, " SWYM isn't": 6,
              ' SWYM "x': 5, " SW-M": 4, "a": 7, " BYTE \"a\" ;2X": 3, " BYTE 'a": 6, " BYTE \"'\",'\"',\"": 5}
    for text, number in faults.items():
        check(text, fault_of_line(text), ("fault", number))
    counted = {" SWYM;;SWYM": 1, " SWYM; ;SWYM": 1, "* note": 0, "": 0, "   ": 0, " SWYM; SWYM": 2,
               " BYTE \"a;b\",';'": 1,
               " SWYM 1 comment ; SWYM": 1, " SWYM ;a SWYM": 2, "# line": 0, "a SWYM\tx;y SWYM": 2}
    for text, number in counted.items():
        check(text, fault_of_line(text), number)


def test_arithmetic():
    """The answers of single instructions."""
    top = 1 << 63
    rows = [(0x1C, -7, 2, alu.Answer(-4 % (1 << 64), r=1)), (0x1C, -7, 0, alu.Answer(0, r=-7 % (1 << 64), event=0x80)),
            (0x1C, -top, -1, alu.Answer(top, r=0, event=0x40)), (0x1A, -1, -1, alu.Answer(1, h=(1 << 64) - 2)),
            (0x38, 1, -1, alu.Answer(0, event=0x40)), (0x38, 0, -1, alu.Answer(0)), (0x38, -1, 63, alu.Answer(top)),
            (0x3C, -8, 100, alu.Answer((1 << 64) - 1)), (0xDA, 0xFF, 0x0F, alu.Answer(4)),
            (0xDC, 0x0102, 0x0201, alu.Answer(0x0102)), (0xD0, 0x0305, 0x0107, alu.Answer(0x0200)),
            (0x30, -1, 1, alu.Answer((1 << 64) - 1)), (0x32, -1, 1, alu.Answer(1))]
    for code, y, z, wanted in rows:
        check(f"alu {code:x}", alu.alu(code, y % (1 << 64), z % (1 << 64)), wanted)
    check("DIVU", alu.alu(0x1E, 0, 2, d=1), alu.Answer(1 << 63, r=0))
    check("DIVU too small", alu.alu(0x1E, 0, 2, d=2), alu.Answer(2, r=0))


def test_trips():
    """Events trip where they are enabled, and set their bits where they are not."""
    ran = dump(OVERFLOW)
    wanted = {"rX": 0x8000000021000001, "rW": 0x114, "rY": (1 << 63) - 1, "rZ": 1, "rB": 0x100, "$0": 1 << 63,
              "rA": 0x4000}
    for name, number in wanted.items():
        check(name, ran[name], octa(number))
    check("steps", (outcome(OVERFLOW), ran["rC"]), (("Done", 1), octa(7)))
    without = OVERFLOW.split("/", 3)[3]
    check("unhandled", outcome(without), ("Stopped", 0x110, 117))
    check("unhandled text", run(without).errors, "#0000000000000110: 117 UnhandledTrip\n")
    quiet = OVERFLOW.replace("SETL $1,#4000", "SETL $1,0")
    check("noted", (outcome(quiet), dump(quiet)["rA"]), (("Done", 0), octa(0x40)))
    store = "Main SETH $0,#2000/_SETL $1,384/_STB $1,$0,1/_LDBU $255,$0,1/_TRAP 0,Halt,0"
    ran = dump(store)
    check("store", (outcome(store), ran["rC"], ran["rA"]), (("Done", 128), octa(5), octa(0x40)))
    check("stored", ran["M#2000000000000000"], octa(0x0080 << 48))


def test_stack():
    """Calls, frames, and a ring that spills."""
    for ring in (256, 512, 1024, 65536):
        words = f"run --ring {ring} --dump p.mms"
        check("recursion", (outcome(RECURSION, words), dump(RECURSION, words)["rC"]), (("Done", 94), octa(2106)))
    check("recursion list", outcome(RECURSION, kind="list"), ("Done", 94))
    check("spill", [outcome(SPILL, f"run --ring {it} p.mms") for it in (256, 512, 1024)],
          [("Done", 104), ("Done", 0), ("Done", 0)])
    check("rS in the dump", dump(SPILL)["rS"], octa(BASE + 360))
    check("wild", outcome(SPILL, kind="list"), ("Wild",))
    many = "Main PUSHJ $99,@+4/" + "_PUSHJ $99,@+4/" * 20 + "_GET $255,rS/_TRAP 0,Halt,0"
    check("big ring", [outcome(many, f"run --ring {it} p.mms") for it in (2048, 4096)], [("Done", 168), ("Done", 0)])
    check("frame", (outcome(FRAME), dump(FRAME)["rC"]), (("Done", 5), octa(7)))
    check("frame list", outcome(FRAME, kind="list"), ("Done", 5))
    saved = "Main SETL $0,5/_SAVE $255,0/_TRAP 0,Halt,0"
    check("SAVE", dump(saved)["$255"], octa(BASE + 128))
    rows = {"Main POP 0,0": ("Stopped", 0, 115), "Main UNSAVE 0,$0": ("Stopped", 0, 116),
            "Main FADD $0,$1,$2": ("Stopped", 0, 110),
            "Main PUSHJ $3,F/_SET $255,$3/_TRAP 0,Halt,0/F SETL $0,9/_POP 1,0": ("Done", 9),
            "Main PUT rG,40/_SETL $50,7/_PUT rG,60/_SET $255,$50/_TRAP 0,Halt,0": ("Done", 0),
            "Main PUT rG,40/_SETL $50,7/_SET $255,$50/_TRAP 0,Halt,0": ("Done", 7)}
    for text, wanted in rows.items():
        check(text, outcome(text), wanted)
    stack = WindowStack(256)
    stack.set(1, 0)
    for _ in range(3):
        stack.push(99)
    check("spilled", stack.spilled(), 45)


def test_full_stack():
    """More than a million calls fill the stack, for every ring."""
    ran = run("Main PUSHJ $255,Main", "run --dump p.mms")
    check("full", (ran.outcome.kind, *ran.outcome.values), ("Stopped", 0, 114))
    check("full steps", f"rC={octa(1048574)}\n" in ran.output, True)


def test_insertions():
    """RESUME inserts an instruction."""
    rows = {
        "Main SETL $2,1/_INCML $2,#2300/_PUT rX,$2": (("Done", 2), 8),
        "Main SETL $2,1/_INCML $2,#2300/_INCH $2,#0100/_PUT rX,$2/_SETL $3,40/_PUT rY,$3/_PUT rZ,2": (("Done", 42), 12),
        "Main SETH $2,#0200/_PUT rX,$2/_SETL $3,9/_PUT rZ,$3": (("Done", 9), 9),
        "Main SETH $2,#0300/_PUT rX,$2": (("Stopped", 16, 111), 4),
    }
    for text, (wanted, steps) in rows.items():
        text += INSERTION_END
        check(text, (outcome(text), dump(text)["rC"]), (wanted, octa(steps)))
    check("nothing to insert", outcome("Main RESUME 0"), ("Stopped", 0, 120))


def test_traps():
    """File traps."""
    for given, wanted in ((b"ab\n", 3), (b"abcdefgh", 7), (b"ab", 255)):
        check("Fgets", outcome(LINE, given=given), ("Done", wanted))
    ran = run(LINE, given=b"abcdefgh")
    check("left", ran.host.input, b"h")
    check("Fgets fails", outcome(LINE, given=b"ab\n", failing=[3]), ("Done", 255))
    read = LINE.replace("Fgets", "Fread")
    check("Fread", outcome(read, given=b"ab"), ("Done", 250))
    check("Fread fails", outcome(read, given=b"ab", failing=[3]), ("Done", 247))
    rows = {"Main TRAP 0,Ftell,StdOut/_TRAP 0,Halt,0": ("Done", 255),
            "Main TRAP 0,Fseek,StdOut/_TRAP 0,Halt,0": ("Done", 255),
            "Main TRAP 0,Fgetws,0": ("Stopped", 0, 121), "Main TRAP 0,11,0": ("Stopped", 0, 124),
            "Main TRAP 1,5,0": ("Stopped", 0, 124), "Main TRAP 0,0,1": ("Stopped", 0, 124)}
    for text, wanted in rows.items():
        check(text, outcome(text), wanted)
    for failing, wanted in ((0, ("HostFault",)), (1, ("HostFault",)), (2, ("HostFault",)), (3, ("Done", 8)),
                            (4, ("Done", 255))):
        output = {3: ", world\n", 4: "hello"}.get(failing, "")
        check(f"failing {failing}", run(HELLO, "run hello.mms", failing=[failing]).shown(), (wanted, output))
    for failing in range(6):
        ran = run(HELLO, "asm p.mms p.mmo", failing=[failing])
        left = ran.host.files.get(b"p.mmo")
        wanted = {4: b"", 5: plain(HELLO_OBJECT)}.get(failing)
        check(f"asm failing {failing}", (ran.outcome.kind, left), ("HostFault", wanted))


def console(text, commands, words="run -i p.mms"):
    """The output of a session."""
    return run(text, words, commands.encode()).shown()


def test_console():
    """Sessions."""
    lines_given = "bx#108\nc\n$1!\nM#2000000000000000\n$1=5\nn\nq\n"
    check("session", run(HELLO, "run -i hello.mms", lines_given.encode()).shown(), (("Quit",), CONSOLE_OUTPUT))
    rows = {"s": "steps 0 at #0000000000000104 L 2 G 255", "rM=1": "rM=#0000000000000001", "rS": "rS=#6000000000000000",
            "M0=1": "M#0000000000000000=#0000000000000001", "$300": "? no such register",
            "bw#6000000000000000": "? bad address", "$007": "$7=#0000000000000000", "rL=200": "rL=#0000000000000002",
            "rS=1": "? cannot change", "+1": "? no memory shown yet", "+0": "? bad number", "+101": "? bad number",
            "x": "? unknown command", "r": "? unknown command", "rQQ": "? no such register",
            "M12345678901234567": "? unknown command", "$1=18446744073709551616": "? bad number",
            "$1=-9223372036854775809": "? bad number", "$1=-9223372036854775808": "$1=#8000000000000000",
            "$1=#00000000000000000000001": "$1=#0000000000000001", "M8000000000000000": "? bad address",
            "g254": "? no such register", "g255": "g255=#0000000000000104", "M100\"": "M#0000000000000100=\"hi......\"",
            "rG=31": "? cannot change", "$300=18446744073709551616": "? bad number", "b#": "? unknown command",
            "M": "? unknown command", "r1": "? unknown command", "c x": "? unknown command",
            "$1=- 1": "? unknown command", "+": "? unknown command", "@8000000000000000": "? bad address"}
    for command, wanted in rows.items():
        check(command, console(FIRST, command + "\nq\n")[1], f"mmix> {wanted}\nmmix> ")
    check("flags", console(FIRST, "bxrw100\nt104\nbx#101\nu100\nB")[1],
          "mmix> " * 5 + "#0000000000000100 x\n#0000000000000104 t\nmmix> ")
    check("traced break", console(FIRST, "t104\nbx108\nc\nq\n")[1],
          "mmix> mmix> mmix> #0000000000000104 f5ffffff GETA $255,#0000000000000100 $255=#0000000000000100\n"
          "break x #0000000000000108\nmmix> ")
    swap = "_LOC #2000000000000000/_GREG @/a OCTA 0/_LOC #100/Main CSWAP $0,a/_TRAP 0,0,0"
    check("CSWAP breaks", console(swap, "bw2000000000000000\nbr2000000000000004\nc\nq\n")[1],
          "mmix> mmix> mmix> break r #2000000000000004\nmmix> ")
    check("more", console(FIRST, "M0=1\n+2\nq")[1], "mmix> M#0000000000000000=#0000000000000001\nmmix> "
          "M#0000000000000008=#0000000000000000\nM#0000000000000010=#0000000000000000\nmmix> ")
    check("past the end", console(FIRST, "M7ffffffffffffff8\n+1\n")[1],
          "mmix> M#7ffffffffffffff8=#0000000000000000\nmmix> ? no memory shown yet\nmmix> ")
    check("long line", console(FIRST, "$0" + " " * 4095 + "\n")[1], "mmix> ? unknown command\nmmix> ")
    check("return", console(FIRST, "$0\r\n")[1], "mmix> $0=#0000000000000001\nmmix> ")
    check("spent", console(FIRST, "n\nn", "run -i --steps 1 p.mms")[0], ("StepsSpent", 1))
    check("halted", console(FIRST, "c\n")[0], ("Done", 3))
    check("trap traced", console(FIRST, "n\nn\nq")[1].splitlines()[1],
          "mmix> hi")
    check("spent at a break", console(FIRST, "bx104\nc\n", "run -i --steps 1 p.mms")[0], ("StepsSpent", 1))


def by_turns(text, turns, words="multi --dump turns p.mmo"):
    """An object by a schedule: the outcome, and the lines but for those of code."""
    host = MemoryHost(files={b"turns": bytes(turns), b"p.mmo": Assembly(source_of(text)).object()})
    ended = mmixware(words.split(), host)
    shown = [line for line in bytes(host.output).decode().splitlines() if not line.startswith("M#0")]
    return (ended.kind, *ended.values), shown


def test_processors():
    """Processors that take turns."""
    octa_row = "M#2000000000000000=#000000000000000"
    rows = [(LOST, (0, 1), 4, 4, 1), (LOST, (0, 0, 0, 0, 1), 4, 4, 2), (COUNTER, (0, 1), 6, 11, 2), (LOCK, (0, 1), 9, 17, 2)]
    for text, turns, first, second, total in rows:
        check(f"turns {turns} of {text[:60]}", by_turns(text, turns),
              (("Done", 0), [f"processor 0 halted 0 steps {first}", f"processor 1 halted 0 steps {second}", octa_row + str(total)]))
    check("one that no byte names", by_turns("Main SET $255,$0/_TRAP 0,0,0", (1,), "multi turns p.mmo"),
          (("Done", 0), ["processor 0 running steps 0", "processor 1 halted 2 steps 2"]))
    check("its own number", by_turns("Main SET $255,$1/_TRAP 0,0,0", (0, 2), "multi turns p.mmo")[1][2], "processor 2 halted 2 steps 2")
    check("stopped", by_turns("Main PBZ $1,@+8/_POP 0,0/_JMP Main", (0, 1), "multi turns p.mmo"),
          (("Stopped", 4, 115), ["processor 0 running steps 2", "processor 1 stopped 115 steps 1"]))
    check("spent", by_turns("Main JMP Main", (0, 1), "multi --steps 3 turns p.mmo"),
          (("StepsSpent", 3), ["processor 0 running steps 2", "processor 1 running steps 1"]))
    check("halted with the last step", by_turns("Main TRAP 0,0,0", (0, 1), "multi --steps 2 turns p.mmo")[0], ("Done", 0))
    faults = {(): 0, (0, 9): 1, (8,): 0, (0, 7, 8, 9): 2}
    for turns, place in faults.items():
        check(f"schedule {turns}", by_turns(FIRST, turns), (("BadSchedule", place), []))
    check("a long one", by_turns(FIRST, bytes((1 << 22) + 1))[0], ("BadSchedule", 1 << 22))
    check("no object", by_turns(FIRST, (0,), "multi turns none")[0], ("NoFile",))
    check("no schedule", by_turns(FIRST, (0,), "multi none p.mmo")[0], ("NoFile",))


def test_reports():
    """What the steps of a run did, after the message."""
    profile = "profile 20 ADD 10\nprofile 25 SUB 10\nprofile 55 PBP 10\nprofile c1 OR 1\nprofile e3 SETL 2\ncover 6\n"
    check("sum", run(SUM, "run --report p.mms").errors, profile)
    check("refused", run("Main FROB", "run --report p.mms").errors, "line 1: 39 UnknownOpcode\ncover 0\n")
    check("missing", Ran(None, "run --report none.mms").errors, "no file\ncover 0\n")
    check("usage", Ran(None, "run --report").errors, "usage fault 7 MissingFile at word 2\n")
    check("stopped", run(LOST.replace("TRAP 0,Halt,0", "POP 0,0"), "run --report p.mms").errors,
          "#000000000000010c: 115 Underflow\nprofile 23 ADDU 1\nprofile 8d LDO 1\nprofile ad STO 1\ncover 3\n"
          "write #0000000000000108 #2000000000000000 8\n")
    many = "_LOC Data_Segment/_GREG @/x OCTA 0/_LOC #100/Main SETL $1,150/1H STB $1,x/_SUB $1,$1,1/_PBP $1,1B/_TRAP 0,0,0"
    check("a hundred writes", run(many, "run --report p.mms").errors.count("write #0000000000000104 #2000000000000000 1\n"), 100)


def test_last_steps():
    """Steps that are taken back."""
    shown = ("steps 2 at #4000000000000008 L 3 G 255\nsteps 1 at #0000000000000104 L 3 G 255\n"
             "steps 0 at #0000000000000100 L 2 G 255\n")
    ran = run(ASTRAY, "run --last 3 p.mms")
    check("astray", (ran.output, ran.errors), (shown, "#400000000000000c: 124 UnknownTrap\n"))
    check("no more than there are", run(ASTRAY, "run --last 1024 p.mms").output.count("\n"), 3)
    check("one", run(ASTRAY, "run --last 1 p.mms").output, shown[:39])
    check("dump of the last", run(ASTRAY, "run --last 2 --dump p.mms").output.splitlines()[2:4], ["rB=#0000000000000000", "rD=#0000000000000000"])
    check("its step", "rC=#0000000000000001" in run(ASTRAY, "run --last 2 --dump p.mms").output.splitlines(), True)
    check("halted", run(FIRST, "run --last 3 p.mms").shown(), (("Done", 3), "hi\n"))
    after = "_LOC #100/Main GETA $255,1F/_TRAP 0,Fputs,StdOut/_SET $1,5/_POP 0,0/1H BYTE \"a\",10,0"
    check("after a trap", run(after, "run --last 9 p.mms").output, "a\nsteps 2 at #0000000000000108 L 2 G 255\n")
    twice = "_LOC #100/Main GETA $255,1F/_TRAP 0,Fputs,StdOut/_GETA $255,1F/_TRAP 0,Fputs,StdOut/_SET $1,5/_POP 0,0/1H BYTE \"a\",10,0"
    check("after two traps", run(twice, "run --last 9 p.mms").output, "a\na\nsteps 4 at #0000000000000110 L 2 G 255\n")
    check("a thousand and twenty-four", run("Main JMP Main", "run --steps 1100 --last 1024 p.mms").output.count("\n"), 1024)
    check("spent", run("Main JMP Main", "run --steps 2 --last 1 p.mms").shown(), (("StepsSpent", 2), "steps 1 at #0000000000000000 L 2 G 255\n"))
    check("no line is written", run(ASTRAY, "run --last 3 p.mms", failing=(3,)).shown(), (("HostFault",), ""))


def test_words():
    """Faults of the words."""
    rows = {"": (1, 0), "run --ring 300 a.mms": (6, 2), "asm a.mms": (7, 2), "run -x a.mms": (3, 1), "gen 0": (5, 1),
            "asm a b c": (8, 3), "run --steps": (4, 2), "go": (2, 0), "run --ring 131072 a.mms": (6, 2), "run": (7, 1),
            "gen": (7, 1), "gen 1 2": (8, 2), "run --steps -5 a": (5, 2), "run -": (3, 1), "asm -i a b": (3, 1),
            "run --steps 1000000000001 a": (5, 2), "run --ring x a": (5, 2), "gen --ring 256": (7, 3), "gen -5": (3, 1),
            "run --steps 00000000000001 a": (5, 2), "list a": (2, 0),
            "type": (7, 1), "type --ring 256 a": (3, 1), "type a b": (8, 2), "multi": (7, 1), "multi a": (7, 2),
            "multi a b c": (8, 3), "multi -i a b": (3, 1), "multi --report a b": (3, 1), "multi --last 1 a b": (3, 1),
            "run -i --report a": (10, 2), "run --report -i a": (10, 2), "run --last 3 -i a": (10, 3), "run --report --last x a": (10, 2),
            "sim --last 1025 a": (5, 2), "sim --last 0 a": (5, 2), "sim --last": (4, 2), "asm --report a b": (3, 1)}
    for words, wanted in rows.items():
        check(words, Ran(None, words).shown()[0], ("Usage", *wanted))
    check("message", Ran(None, "run --ring 300 a.mms").errors, "usage fault 6 BadRing at word 2\n")
    check("object with a dash", run(HELLO, "asm p.mms -x").outcome.kind, "Done")
    check("last counts", outcome("Main JMP Main", "run --steps 5 --steps 3 p.mms"), ("StepsSpent", 3))


def main():
    """Runs all rows."""
    tests = [test for name, test in sorted(globals().items()) if name.startswith("test_")]
    for test in tests:
        test()
    print(f"{counts[0]} passed, {counts[1]} failed")
    return 1 if counts[1] else 0


if __name__ == "__main__":
    sys.exit(main())
