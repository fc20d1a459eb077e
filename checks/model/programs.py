"""Random programs that run: arithmetic, loads and stores, branches, calls, frames, trips, RESUME and file traps."""
from mmixmodel import opcodes

THREE = [name for name, code in opcodes.CODE_OF.items() if opcodes.SHAPE_OF[code] in ("three", "negate")]
WYDES = [name for name, code in opcodes.CODE_OF.items() if opcodes.SHAPE_OF[code] == "wyde"]
BRANCHES = [name for name, code in opcodes.CODE_OF.items() if 0x40 <= code < 0x60]
LOADS = "LDB LDBU LDW LDWU LDT LDTU LDO LDOU LDHT LDUNC CSWAP".split()
STORES = "STB STBU STW STWU STT STTU STO STOU STHT STUNC".split()
IDLE = ("SWYM", "PRELD 3,$1,$2", "PREST 3,$1,8", "SYNCD 3,$1,8", "SYNC 0", "SYNC 3", "PREGO 1,$2,$3", "SYNCID 0,$0,0")
READABLE = "rB rD rE rH rJ rM rR rBB rC rN rO rI rT rTT rK rQ rU rV rG rL rA rF rP rW rX rY rZ rWW rXX rYY rZZ".split()
WRITABLE = "rB rD rE rH rJ rM rR rBB rF rP rW rX rY rZ rWW rXX rYY rZZ".split()
BLOCKS = ("a0", "a1", "a2", "a3")
DATA = """ LOC Data_Segment
base GREG @
spare GREG 0
Octas OCTA 1,-1,#8000000000000000,#7fffffffffffffff,0,255,#123456789abcdef,-128
name0 BYTE "in.txt",0
name1 BYTE "out1",0
name2 BYTE "none",0
text BYTE "hello, ",0
empty BYTE 0
a0 OCTA name0,{mode0}
a1 OCTA name1,{mode1}
a2 OCTA buffer,{size0}
a3 OCTA buffer,{size1}
buffer OCTA 0,0,0,0,0
kept OCTA 0,0
"""


class Programs:
    """A maker of programs and of console commands for them."""

    def __init__(self, rng):
        self.rng = rng
        self.labels = 0
        self.subroutines = rng.randrange(1, 4)
        self.wildness = rng.choice((0, 0, 0, 0.02, 0.1))

    def pick(self, *choices):
        """One of several strings."""
        return self.rng.choice(choices)

    def register(self):
        """A register, most of them low."""
        kind = self.rng.random()
        if kind < 0.8:
            return f"${self.rng.randrange(8)}"
        if kind < 0.97:
            return f"${self.rng.randrange(8, 40)}"
        return self.pick("$255", "$254", f"${self.rng.randrange(256)}")

    def last(self):
        """A register, or a byte."""
        if self.rng.random() < 0.6:
            return self.register()
        return str(self.rng.choice((0, 1, 2, 7, 63, 64, 255, self.rng.randrange(256))))

    def value(self, register):
        """Statements that give a register a value of some interest."""
        rng = self.rng
        number = rng.choice((0, 1, 5, (1 << 64) - 1, 1 << 63, (1 << 63) - 1, rng.randrange(1 << 16),
                             rng.randrange(1 << 64), 127, 128, 0xFF80))
        rows = [f" SETL {register},{number & 0xFFFF}"]
        for name, shift in (("INCML", 16), ("INCMH", 32), ("INCH", 48)):
            if number >> shift & 0xFFFF:
                rows.append(f" {name} {register},{number >> shift & 0xFFFF}")
        return rows

    def data_operand(self):
        """The address operand of a load or a store."""
        kind = self.rng.random()
        if kind < 0.7:
            return f"Octas+{self.rng.randrange(60)}" if self.rng.random() < 0.7 else f"buffer+{self.rng.randrange(32)}"
        if kind < 0.95:
            return f"base,{self.rng.randrange(100)}"
        return f"{self.register()},{self.last()}"

    def block(self):
        """A few statements with one purpose."""
        often = (self.arithmetic, self.arithmetic, self.arithmetic, self.memory, self.memory, self.memory, self.branch,
                 self.branch, self.special, self.special, self.trap, self.trap)
        makers = often + (self.wyde, self.call, self.frame, self.text, self.trip, self.insertion, self.odd, self.window)
        if self.rng.random() < self.wildness:
            return self.wild()
        return self.rng.choice(makers)()

    def arithmetic(self):
        """Some instructions on whole numbers."""
        rows = self.value(self.register()) if self.rng.random() < 0.4 else []
        if self.rng.random() < 0.1:
            rows += [f" {self.pick('SETL $3,', 'NEG $3,0,')}{self.rng.randrange(256)}",
                     f" NEG $4,0,{self.rng.randrange(9)}",
                     f" {self.pick('DIV', 'DIVU', 'MUL', 'CMP')} $5,$3,{self.pick('$4', '$4', '2', '3')}", " GET $6,rR"]
        for _ in range(self.rng.randrange(1, 4)):
            name = self.rng.choice(THREE)
            second = self.rng.randrange(256) if name in ("NEG", "NEGU") else self.register()
            rows.append(f" {name} {self.register()},{second},{self.last()}")
        return rows

    def wyde(self):
        """An instruction with 16 bits."""
        return [f" {self.rng.choice(WYDES)} {self.register()},{self.rng.randrange(65536)}"]

    def memory(self):
        """Loads and stores."""
        rows = []
        for _ in range(self.rng.randrange(1, 4)):
            kind = self.rng.random()
            if kind < 0.5:
                rows.append(f" {self.rng.choice(LOADS)} {self.register()},{self.data_operand()}")
            elif kind < 0.95:
                rows.append(f" {self.rng.choice(STORES)} {self.register()},{self.data_operand()}")
            else:
                rows.append(f" STCO {self.rng.randrange(256)},{self.data_operand()}")
        return rows

    def branch(self):
        """A branch over a few statements, or back."""
        self.labels += 1
        body = self.arithmetic() + self.memory()
        if self.rng.random() < 0.2:
            return [f"B{self.labels} SWYM", *body, f" {self.rng.choice(BRANCHES)} {self.register()},B{self.labels}"]
        jump = f" {self.rng.choice(BRANCHES)} {self.register()}," if self.rng.random() < 0.8 else " JMP "
        return [f"{jump}B{self.labels}", *body, f"B{self.labels} SWYM"]

    def call(self):
        """A call of a subroutine."""
        name = f"Sub{self.rng.randrange(self.subroutines)}"
        where = self.rng.choice(("$0", "$1", "$2", "$5", "$9", "$30", "$255", "$254"))
        if self.rng.random() < 0.8:
            return [f" PUSHJ {where},{name}"]
        return [f" GETA $7,{name}",
                self.pick(f" PUSHGO {where},$7,0", f" PUSHGO {where},$7,$6",
                          " GO $6,$7,0" if self.rng.random() < 0.1 else f" PUSHGO {where},$7,2")]

    def frame(self):
        """SAVE, and UNSAVE of its frame or of an older one."""
        body = self.arithmetic() + (self.call() if self.rng.random() < 0.3 else [])
        kind = self.rng.random()
        if kind < 0.7:
            last = ["kept+8"] if kind < 0.1 else ["kept"]
            return [" SAVE spare,0", f" STO spare,{last[0]}", *body, " LDO spare,kept", " BZ spare,@+8",
                    " UNSAVE 0,spare"]
        if kind < 0.85:
            return [" SAVE spare,0", " STO spare,kept+8"]
        if kind < 0.95:
            return [" LDO spare,kept+8", " BZ spare,@+8", " UNSAVE 0,spare"]
        return [" SAVE $255,0", " UNSAVE 0,$255"]

    def special(self):
        """GET and PUT."""
        kind = self.rng.random()
        if kind < 0.5:
            return [f" GET {self.register()},{self.rng.choice(READABLE)}"]
        if kind < 0.8:
            return [f" PUT {self.rng.choice(WRITABLE)},{self.last()}"]
        if kind < 0.9:
            number = self.rng.choice((0, 0x4000, 0x8000, 0xC000, 0xFF00, 0xC040, 0x10000))
            return [f" SETL $3,{number & 0xFFFF}", f" INCML $3,{number >> 16}", " PUT rA,$3"]
        if kind < 0.95:
            return [f" PUT rL,{self.rng.randrange(20)}"]
        return [f" PUT rG,{self.rng.choice((32, 40, 100, 200, 250, 254, 255))}"]

    def window(self):
        """Registers far up, so that many are local."""
        return [f" SETL ${self.rng.randrange(60, 250)},{self.rng.randrange(99)}",
                f" PUSHJ ${self.rng.randrange(40, 200)},Sub0"]

    def trap(self):
        """A file trap with arguments in memory."""
        slot = self.rng.choice((0, 1, 2, 3, 3, 4, 4, 255))
        service = self.rng.choice("Fopen Fopen Fclose Fread Fread Fgets Fgets Fwrite Fwrite Fseek Ftell".split())
        block = self.rng.choice(("a0", "a1", "a1") if service == "Fopen" else ("a2", "a3"))
        if service == "Fseek":
            return [self.pick(" SETL $255,3", " NEG $255,0,1", " NEG $255,0,4", " SETL $255,0", " SETL $255,999"),
                    f" TRAP 0,Fseek,{slot}"]
        rows = [f" LDA $255,{block}", f" TRAP 0,{service},{slot}"]
        return rows + ([f" SET {self.register()},$255"] if self.rng.random() < 0.5 else [])

    def text(self):
        """Fputs of a text or of a line that was read."""
        return [f" LDA $255,{self.pick('text', 'empty', 'buffer', 'name2', 'Octas')}",
                f" TRAP 0,Fputs,{self.rng.choice((1, 1, 2, 3, 0, 4))}"]

    def trip(self):
        """TRIP, or an event with its trip enabled."""
        kind = self.rng.random()
        if kind < 0.3:
            return [f" TRIP {self.rng.randrange(256)},{self.rng.randrange(8)},{self.rng.randrange(8)}"]
        rows = [" SETL $3,#C000", " PUT rA,$3"] if self.rng.random() < 0.7 else []
        event = self.pick(f" DIV {self.register()},{self.register()},0", " SETL $4,300;  STB $4,Octas+5",
                          " NEG $4,0,1;  SRU $4,$4,1;  ADD $4,$4,$4",
                          " SETH $4,#8000;  NEG $255,0,$4", " SETL $4,1;  SL $255,$4,64")
        return rows + [event]

    def insertion(self):
        """RESUME that inserts an instruction, with all of its registers set."""
        rng = self.rng
        kind = rng.choice((0, 0, 1, 1, 1, 2, 2))
        alu_code = rng.choice((rng.randrange(0x18, 0x40), rng.randrange(0x60, 0x80), rng.randrange(0xC0, 0xF0)))
        code = alu_code if kind or rng.random() < 0.5 else rng.choice((0x81, 0xA1, 0x9B, 0x43, 0xF4, 0xFD, 0xFF, 0x95))
        word = code << 24 | rng.choice((0, 0, 1, 255)) << 16 | rng.randrange(10) << 8 | rng.randrange(256)
        if rng.random() < 0.2:
            kind = 0
            word = rng.choice((0xF8000000, 0xF2020001, 0xF0000001, 0x42000002, 0xFD000000, 0xFAFF0000, 0xFE050014,
                               0xF6040003))
        kind <<= 8
        if rng.random() < 0.05:
            kind |= rng.choice((1, 0x100, 0x300))
            word = rng.randrange(1 << 32)
        self.labels += 1
        rows = [f" SETH $6,{kind}", self.pick(*9 * (" SWYM",), " INCMH $6,#100"), f" INCML $6,{word >> 16}",
                f" INCL $6,{word & 0xFFFF}", " PUT rX,$6"]
        rows += self.value("$5") + [" PUT rY,$5"] + self.value("$5") + [" PUT rZ,$5"] if rng.random() < 0.7 else []
        low = [f" INCL $6,{rng.randrange(4)}"] if rng.random() < 0.2 else []
        between = rng.randrange(3) * [" INCL $7,1"]
        return rows + [f" GETA $6,R{self.labels}", *low, " PUT rW,$6", " RESUME 0", *between, f"R{self.labels} SWYM"]

    def odd(self):
        """An instruction that does nothing, or any tetra at a low rate."""
        if self.rng.random() < 0.03:
            return [f" TETRA #{self.rng.randrange(1 << 32):x}"]
        if self.rng.random() < 0.03:
            return [self.pick(" FADD $0,$1,$2", " PUT rK,0", " PUT rO,0", " SYNC 7", " SYNC 9", " LDVTS $0,$1,$2",
                              " POP 2,0", " TETRA #fe000100", " TRAP 0,Fgetws,0", " TRAP 1,0,0", " TRAP 0,99,0",
                              " SETH $4,#8000;  LDO $3,$4,0", " SETH $4,#8000;  GO $3,$4,0")]
        return [" " + self.rng.choice(IDLE)]

    def forged(self):
        """A frame that no SAVE made: its G, its L and its place are free, and the stack may be nearly full then."""
        rng = self.rng
        g, count = rng.choice((31, 32, 100, 240, 255)), rng.choice((0, 2, 40, 255))
        index = rng.choice((rng.randrange(300, 2000), (1 << 20) - 1, (1 << 20) - rng.randrange(1, 300)))
        return [" SETH $4,#6000", f" INCML $4,{8 * index >> 16}", f" INCL $4,{8 * index & 0xFFFF}",
                f" SETH $5,{g << 8}", " INCL $5,#c000", " STO $5,$4,0", f" SETL $6,{count}",
                f" SETL $7,{8 * (13 + 256 - g)}", " SUBU $7,$4,$7", " STO $6,$7,0", " UNSAVE 0,$4"]

    def wild(self):
        """Something that sees the stack in memory."""
        if self.rng.random() < 0.2:
            return self.forged()
        return self.rng.choice((
            [f" GET {self.register()},rS"],
            [f" SETL ${self.rng.randrange(60, 255)},7", f" GET ${self.rng.randrange(255)},rS"],
            [*self.rng.randrange(5) * (f" PUSHJ ${self.rng.randrange(20, 127)},@+4",),
             f" GET ${self.rng.randrange(200)},rS"],
            [" SETH $4,#6000", f" LDO {self.register()},$4,{self.rng.randrange(256)}"],
            [" SETH $4,#6000", f" STO {self.register()},$4,{self.rng.randrange(256)}"],
            [" GET $4,rO", " SUBU $4,$4,8", f" {self.pick('LDO', 'STO', 'CSWAP', 'STB')} {self.register()},$4,0"],
            [" SAVE $255,0", " SET $4,$255", " STCO 3,$4,0", " UNSAVE 0,$255"],
            [" SETH $4,#6000", f" SETL $255,{self.rng.randrange(400)}", " ADDU $255,$255,$4", " UNSAVE 0,$255"],
            [" SETH $4,#6080", f" {self.pick('LDO', 'STO')} $3,$4,0"],
            [" SETH $255,#6000", " TRAP 0,Fputs,1"]))

    def subroutine(self, number):
        """A subroutine with a random body and a random count of results."""
        rows = [f"Sub{number} SWYM"]
        calls_on = self.rng.random() < 0.5
        rows += [" GET $10,rJ"] if calls_on else []
        for _ in range(self.rng.randrange(4)):
            rows += self.rng.choice((self.arithmetic, self.memory, self.wyde, self.text))()
        if calls_on:
            is_calling = self.rng.random() < 0.3 and number
            rows += [f" PUSHJ $11,Sub{(number + 1) % self.subroutines}" if is_calling else " SWYM", " PUT rJ,$10"]
        return rows + [f" POP {self.rng.choice((0, 1, 1, 2, 3, 12, 255))},{self.rng.choice((0, 0, 0, 0, 1))}"]

    def handlers(self):
        """Handlers for TRIP, D and V at their addresses."""
        rows = []
        for address in (0, 16, 32):
            if self.rng.random() < 0.9:
                rows += [f" LOC {address}", self.pick(" GET $8,rX", " GET $8,rY", " SWYM", " GET $255,rZ"),
                         " GET $255,rB", " RESUME 0"]
        return rows

    def source(self):
        """A whole program."""
        rng = self.rng
        text = DATA.format(mode0=rng.randrange(6) if rng.random() < 0.4 else rng.choice((0, 2)),
                           mode1=rng.choice((1, 3, 4)),
                           size0=rng.randrange(40), size1=rng.randrange(9))
        rows = self.handlers() + [" LOC #100"]
        body = []
        for _ in range(rng.randrange(1, 25)):
            body += self.block()
        body[:1] = ["Main" + body[0]] if body[0].startswith(" ") else ["Main SWYM", body[0]]
        rows += body + [self.pick(" SET $255,$3", " SETL $255,9", " SWYM"), " TRAP 0,Halt,0"]
        for number in range(self.subroutines):
            rows += self.subroutine(number)
        return text + "\n".join(rows) + "\n"

    def full(self):
        """A program for a memory that is nearly full: stores and reads that need new pages."""
        rng = self.rng
        fresh = (" SETH $4,#3000", " SETH $4,#3000;  INCL $4,8188", " SETH $4,#4000", " SETH $4,#6000",
                 " SETH $4,#6080")
        rows = [" LOC #100", "Main SWYM"]
        for _ in range(rng.randrange(1, 6)):
            rows.append(rng.choice(fresh))
            rows += rng.choice((
                [f" {self.pick('STO $3', 'STB $3', 'STCO 3', 'CSWAP $3', 'LDO $3')},$4,{8 * rng.randrange(32)}"],
                [" PUT rP,1", " CSWAP $3,$4,0"],
                [" SETL $255,#200", " STO $4,$255,0", f" SETL $5,{rng.randrange(20)}", " STO $5,$255,8",
                 f" TRAP 0,{self.pick('Fread', 'Fgets', 'Fwrite')},{rng.randrange(2)}"]))
        return "\n".join(rows + [" TRAP 0,Halt,0"]) + "\n"

    def command(self):
        """A console line."""
        rng = self.rng
        kind = rng.randrange(20)
        address = rng.choice(("#100", "104", "10c", "#2000000000000000", "2000000000000040", "#4000000000000008",
                              "#120", "0", "20",
                              f"{rng.randrange(0x100, 0x180):x}", "8000000000000000", "7ffffffffffffff8"))
        if rng.random() < 0.03:
            address = rng.choice(("6000000000000000", "#6000000000000008", "6000000000800000"))
        form = rng.choice(("", "", "!", "#", '"'))
        number = rng.choice(("5", "-1", "#ff", "0", "18446744073709551615", "18446744073709551616",
                             "-9223372036854775808", "-9223372036854775809",
                             "#10000000000000000"))
        names = [it[1:] for it in READABLE] + ["QQ", "L", "G", "A", "x"] + (["S"] if rng.random() < 0.2 else [])
        name = "r" + rng.choice(names)
        register = rng.choice((str(rng.randrange(8)), str(rng.randrange(256)), "255", "254", "300", "007"))
        if kind < 5:
            return rng.choice(("", "n"))
        rows = ("c", "s", "c", "$" + register + form, "g" + register + form, name + form, "M" + address + form,
                f"${register}={number}", f"g{register}={number}", f"{name}={number}", f"M{address}={number}",
                f"+{rng.randrange(5)}{form}", f"@{address}",
                "b" + rng.choice(("", "r", "w", "x", "rw", "xx", "rwx")) + address, rng.choice("tu") + address)
        if rng.random() < 0.1:
            return rng.choice(("B", "q x", "+", "b", "M", "$", "r", "$1=", "+101", "+0", "$5=- 1", "nn", "c ",
                               "M" + "1" * 17, "r1", "@", "x" * 4097, "rB\xe9",
                               "M#", "b#104", "t#g", "$-1", "+2", '+3"'))
        return rows[kind - 5]
