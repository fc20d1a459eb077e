"""Random sources, with statements of every kind and faults of every kind at a low rate."""
from mmixmodel import opcodes

NAMES = [front + name for front in ("", "", "", ":", "p:") for name in "a b x1 y_ Zed q:r \xe9t loop".split()]
PLAIN_NAMES = [name for name in opcodes.CODE_OF]
FAULTY = (
    " FROB 1", "a", "2X SWYM", " SWYM isn't", " BYTE \"x", " SW-M", "2H,", " BYTE 256", " SETL $1,-1", " ADD $1,$2",
    " BYTE $1", " ADD 1,2,3", " JMP x_never", " OCTA y_never", " JMP 9F", "x PREFIX y", " PREFIX 1", " BZ $0,@+2",
    " BZ $0,@+4*65536", " LDO $1,#7000000000000000", "Halt IS 1", "d IS 1;d IS 2", " BYTE 1/0", " BYTE 3//3",
    " BYTE $1*2", " BYTE 7-$2", " SET $1,$1+$2", " SET $256,1", " BYTE 99999999999999999999", " BYTE 1,,2",
    " BYTE \"\"", " LOC x_never", " LOCAL $255", " LOCAL 1", " LOC #5fffffffffffffff;  BYTE 1,1", "z JMP z2;z2 IS $1",
    "z JMP z2;z2 IS 2", "z BZ $0,z2;z2 IS #1000000", " GREG $1", " BYTE " + "(" * 256 + "1", " SWYM " + "-" * 4000,
    "*" * 4097, "k" * 1025 + " IS 1", " PUT 9,300", " FIX 1,$2", "Main IS $1", " PREFIX " + "k" * 1024, " BYTE 12B",
    " BYTE #", " BYTE ''", " BYTE (1", " POP 256,1", " SYNC 16777216", " TRAP 1,$1", " SWYM $1",
)


class Sources:
    """Random sources with statements of every kind. Most are right as they are; some are damaged afterwards."""

    def __init__(self, rng):
        self.rng = rng
        self.text_labels, self.data_labels, self.numbers, self.registers = [], [], [], []
        self.used, self.promised = set(), []
        self.in_data = False
        self.prefix = ":"

    def pick(self, *choices):
        """One of several strings."""
        return self.rng.choice(choices)

    def complete(self, name):
        """The complete form of a name."""
        return name if name.startswith(":") else self.prefix + name

    def short(self, complete):
        """A way to write a complete name under the prefix."""
        if self.prefix != ":" and complete.startswith(self.prefix) and len(complete) > len(self.prefix):
            return complete[len(self.prefix):]
        return complete if self.prefix != ":" or self.rng.random() < 0.2 else complete[1:]

    def fresh(self):
        """A name that is not used yet."""
        name = self.rng.choice(NAMES) + self.pick("", "", str(self.rng.randrange(100)))
        complete = self.complete(name)
        if complete in self.used or complete in (":Main", ":"):
            return f"n{len(self.used)}" if self.complete(f"n{len(self.used)}") not in self.used else None
        return name

    # expressions

    def constant(self, limit=1 << 64):
        """A constant below a limit, in one of its forms."""
        number = self.rng.randrange(min(limit, self.rng.choice((2, 10, 256, 65536, 1 << 64))))
        if 33 <= number <= 126 and self.rng.random() < 0.4:
            return f"'{chr(number)}'"
        return self.pick(str(number), f"#{number:x}", f"#{number:X}", f"0{number}")

    def pure(self, depth=2):
        """A pure expression of any value."""
        kind = self.rng.random()
        if depth == 0 or kind < 0.4:
            names = [self.short(it) for it in self.numbers + self.text_labels + self.data_labels]
            return self.rng.choice(names) if names and self.rng.random() < 0.3 else self.pick(
                self.constant(), self.constant(), "@", ":Data_Segment" if self.prefix != ":" else "V_BIT")
        if kind < 0.5:
            return f"({self.pure(depth - 1)})"
        if kind < 0.6:
            return self.pick("-", "~", "+") + self.pure(0)
        if kind < 0.65:
            return f"({self.register()}-{self.register()})"
        operator = self.pick(*"+ - * & | ^ << >>".split(), "+", "-", "/", "%", "//")
        right = self.constant() if operator not in ("/", "%") else str(self.rng.randrange(1, 99))
        if operator == "//":
            return f"{self.rng.randrange(10)}//{self.rng.randrange(10, 99)}"
        return f"{self.pure(depth - 1)}{operator}{right if operator in ('/', '%') else self.pure(depth - 1)}"

    def small(self, limit):
        """A pure expression below a limit."""
        if self.rng.random() < 0.5:
            return self.constant(limit)
        return f"({self.pure()})%{limit}" if self.rng.random() < 0.7 else f"({self.pure(1)})&{limit - 1}"

    def register(self):
        """A register."""
        kind = self.rng.random()
        if self.registers and kind < 0.2:
            return self.short(self.rng.choice(self.registers))
        number = self.rng.randrange(256) if kind < 0.8 else self.rng.randrange(8)
        return self.pick(f"${number}", f"${number}", f"(${number})", f"${number // 2}+{number - number // 2}",
                         f"+${number}", f"$({number})",
                         f"$({number}+256)-256" if kind > 2 else f"$({number})", f"{number}+$0")

    def target(self):
        """The target of a relative address, with the label before or after it."""
        kind = self.rng.random()
        if kind < 0.25:
            return f"{self.rng.randrange(4)}F"
        if kind < 0.4:
            return f"{self.rng.randrange(4)}B"
        if kind < 0.6 and self.text_labels:
            return self.short(self.rng.choice(self.text_labels))
        if kind < 0.8:
            return self.promise()
        return f"@{self.pick('+', '-')}4*{self.rng.randrange(4)}"

    def promise(self):
        """A name that a later instruction has to define."""
        if self.promised and self.rng.random() < 0.5:
            name = self.rng.choice(self.promised)
        else:
            name = self.fresh()
            if name is None:
                return "@"
            name = self.complete(name)
            self.used.add(name)
            self.promised.append(name)
        short = self.short(name)
        return f"({short})" if self.rng.random() < 0.1 else short

    def operand(self, kind):
        """An operand of a kind."""
        limits = {"byte": 256, "wyde": 65536, "tribyte": 1 << 24}
        if kind in limits:
            return self.small(limits[kind])
        if kind in ("near", "far"):
            return self.target()
        if kind in ("either", "loose"):
            return self.register() if self.rng.random() < 0.5 else self.small(256)
        if kind == "base":
            if self.data_labels and self.rng.random() < 0.4:
                return self.short(self.rng.choice(self.data_labels))
            return self.register()
        return self.register()

    # statements

    def instruction(self):
        """An instruction with one of the forms of its shape."""
        name = self.rng.choice(PLAIN_NAMES)
        if self.rng.random() < 0.1:
            name = self.pick("LDA", "SET")
        if name == "SET":
            return f"SET {self.register()},{self.pick(self.register(), self.small(65536))}"
        shape = "memory" if name == "LDA" else opcodes.SHAPE_OF[opcodes.CODE_OF[name]]
        form = self.rng.choice(opcodes.FORMS[shape])
        operands = ",".join(self.operand(it.split()[0]) for it in form)
        return f"{name} {operands}"

    def data(self):
        """BYTE to OCTA with values, strings and references."""
        name = self.pick("BYTE", "WYDE", "TETRA", "OCTA")
        size = {"BYTE": 8, "WYDE": 16, "TETRA": 32, "OCTA": 64}[name]
        operands = []
        for _ in range(self.rng.randrange(1, 5)):
            kind = self.rng.random()
            if kind < 0.2:
                operands.append('"' + self.pick("a", "hi;", "x y", "it's", "\xe9") + '"')
            elif name == "OCTA" and kind < 0.5:
                operands.append(self.pick(self.promise(), "1F", "2B", "0F"))
            elif kind < 0.6:
                operands.append(f"-{self.rng.randrange(1, 1 << size - 1)}" if size < 64 else self.pure())
            else:
                operands.append(self.small(1 << size) if size < 64 else self.pure())
        return name + " " + ",".join(operands)

    def statement(self):
        """One statement with a label, perhaps."""
        kind = self.rng.random()
        if kind < 0.1:
            return self.directive()
        body = self.data() if self.in_data or kind < 0.25 else self.instruction()
        is_instruction = not self.in_data and kind >= 0.25
        chance, label = self.rng.random(), ""
        if is_instruction and self.promised and chance < 0.3:
            name = self.promised.pop(self.rng.randrange(len(self.promised)))
            label = self.short(name)
            self.text_labels.append(name)
        elif chance < 0.45:
            label = f"{self.rng.randrange(4)}H" if is_instruction else ""
        elif chance < 0.6:
            name = self.fresh()
            if name is not None:
                label, name = name, self.complete(name)
                self.used.add(name)
                (self.text_labels if is_instruction else self.data_labels).append(name)
        return label + self.pick(" ", " ", "  ", "\t") + body

    def directive(self):
        """IS, LOC, PREFIX, GREG or LOCAL."""
        name = self.fresh()
        kind = self.rng.randrange(6)
        if kind == 0:
            self.in_data = not self.in_data
            where = self.pick("#100", "#400", "@+4", "#8000", "#80", "0", "#40", "#123456789abcdef0", "@-8")
            if self.in_data:
                where = self.pick("Data_Segment", "#2000000000000100")
            return f" LOC {where.replace('Data', ':Data') if self.prefix != ':' else where}"
        if kind == 1:
            self.prefix = self.pick(":", ":", ":p:", ":q:")
            return f" PREFIX {self.prefix}"
        if kind == 2:
            return f" LOCAL ${self.rng.randrange(200)}"
        if name is None:
            return " SWYM"
        complete = self.complete(name)
        self.used.add(complete)
        if kind == 3:
            self.registers.append(complete)
            return f"{name} GREG {self.pick('@', '0', self.pure(), '#2000000000000000')}"
        if self.rng.random() < 0.5:
            self.registers.append(complete)
            return f"{name} IS {self.register()}".replace(f"IS {name}", "IS $1")
        text = f"{name} IS {self.pure()}"
        self.numbers.append(complete)
        return text

    def source(self, count):
        """A whole source."""
        lines, begins = [" LOC #100"] if self.rng.random() < 0.7 else [], self.rng.randrange(3)
        for number in range(count):
            if number == begins:
                lines.append(f"{':' if self.prefix != ':' else ''}Main SWYM")
                self.in_data = False
            lines.append(self.line())
        if self.in_data:
            lines.append(" LOC #1000")
        lines += [f"{name} SWYM" for name in self.promised if self.rng.random() < 0.97]
        lines += [f"{digit}H SWYM" for digit in range(4) if self.rng.random() < 0.97]
        return self.damaged("\n".join(lines) + self.pick("\n", "\n", ""))

    def far_back(self):
        """Lines with a label ahead that lies lower than its references, or at a place that is no multiple of 4."""
        name = self.fresh() or "n0"
        self.used.add(self.complete(name))
        reference = self.pick(f" JMP {name}", f" BZ $3,{name}", f" OCTA {name}", f" OCTA {name},0,({name})",
                              f" GETA $2,{name}; PUSHJ $1,{name}")
        low, body = self.pick("#400", "#7fc", "#0"), "SWYM"
        if "OCTA" in reference:
            low = self.pick("#400", "#7fc", "#401", "#3fc", "#2000000000000002", "#123456789abcdec")
            body = self.pick("BYTE 1,2,3", "BYTE 152,1", "BYTE 1", "IS @")
        self.in_data = False
        return f" LOC #800\n{reference}\n LOC {low}\n{name} {body}"

    def line(self):
        """One line: a statement, two of them, or a comment."""
        kind = self.rng.random()
        if self.rng.random() < 0.05:
            return self.far_back()
        if kind < 0.05:
            return self.pick("", "* comment", " ", "% x", " ;x", "# 5 \"x\"", "\t* c")
        text = self.statement()
        if kind < 0.15:
            text += self.pick(" comment", "  it's one", " ; ", ";  * x")
        elif kind < 0.25:
            text += self.pick(";", " ;") + self.statement()
        return text

    def damaged(self, text):
        """The text as it is, or with a few changes that are likely to make a fault."""
        if self.rng.random() < 0.6:
            return text
        for _ in range(self.rng.randrange(1, 3)):
            at = self.rng.randrange(len(text) + 1)
            kind = self.rng.randrange(9)
            if kind < 2:
                text = text[:at] + self.rng.choice(" ;,'\"$#()+-/*%<>&|^~@:_09BFHax\xff\n\t") + text[at + (kind == 0):]
            elif kind == 2:
                text = text[:at] + text[at + 1:]
            else:
                lines = text.split("\n")
                at = self.rng.randrange(len(lines))
                if kind == 3:
                    lines.insert(self.rng.randrange(len(lines)), lines[at])
                elif kind == 4:
                    del lines[at]
                else:
                    lines.insert(at, self.pick(*FAULTY))
                text = "\n".join(lines)
        return text
