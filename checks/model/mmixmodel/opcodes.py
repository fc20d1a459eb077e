"""The opcodes of MMIX, the forms of their operands, and the predefined symbols.

A name whose instruction has a form with an immediate last operand, or one for a backward address, has two codes: the
second is the first plus one. The base name is written in sources and in displays.
"""

# From the first code upwards; a star marks rows of names with two codes each.
ROWS = (
    (0x00, "", "TRAP FCMP FUN FEQL FADD FIX FSUB FIXU"),
    (0x08, "*", "FLOT FLOTU SFLOT SFLOTU"),
    (0x10, "", "FMUL FCMPE FUNE FEQLE FDIV FSQRT FREM FINT"),
    (0x18, "*", "MUL MULU DIV DIVU"),
    (0x20, "*", "ADD ADDU SUB SUBU"),
    (0x28, "*", "2ADDU 4ADDU 8ADDU 16ADDU"),
    (0x30, "*", "CMP CMPU NEG NEGU"),
    (0x38, "*", "SL SLU SR SRU"),
    (0x40, "*", "BN BZ BP BOD BNN BNZ BNP BEV"),
    (0x50, "*", "PBN PBZ PBP PBOD PBNN PBNZ PBNP PBEV"),
    (0x60, "*", "CSN CSZ CSP CSOD CSNN CSNZ CSNP CSEV"),
    (0x70, "*", "ZSN ZSZ ZSP ZSOD ZSNN ZSNZ ZSNP ZSEV"),
    (0x80, "*", "LDB LDBU LDW LDWU LDT LDTU LDO LDOU"),
    (0x90, "*", "LDSF LDHT CSWAP LDUNC LDVTS PRELD PREGO GO"),
    (0xA0, "*", "STB STBU STW STWU STT STTU STO STOU"),
    (0xB0, "*", "STSF STHT STCO STUNC SYNCD PREST SYNCID PUSHGO"),
    (0xC0, "*", "OR ORN NOR XOR AND ANDN NAND NXOR"),
    (0xD0, "*", "BDIF WDIF TDIF ODIF MUX SADD MOR MXOR"),
    (0xE0, "", "SETH SETMH SETML SETL INCH INCMH INCML INCL ORH ORMH ORML ORL ANDNH ANDNMH ANDNML ANDNL"),
    (0xF0, "*", "JMP PUSHJ GETA PUT"),
    (0xF8, "", "POP RESUME SAVE UNSAVE SYNC SWYM GET TRIP"),
)

# By the first code of a name and the last.
SHAPES = (
    (0x00, 0x00, "free"), (0x01, 0x04, "registers"), (0x05, 0x05, "round"), (0x06, 0x06, "registers"),
    (0x07, 0x07, "round"), (0x08, 0x0F, "round or byte"), (0x10, 0x14, "registers"), (0x15, 0x15, "round"),
    (0x16, 0x16, "registers"), (0x17, 0x17, "round"), (0x18, 0x33, "three"), (0x34, 0x37, "negate"),
    (0x38, 0x3F, "three"), (0x40, 0x5F, "relative"), (0x60, 0x7F, "three"), (0x80, 0x99, "memory"),
    (0x9A, 0x9D, "memory pure"), (0x9E, 0xB3, "memory"), (0xB4, 0xB5, "memory pure"), (0xB6, 0xB7, "memory"),
    (0xB8, 0xBD, "memory pure"), (0xBE, 0xBF, "memory"), (0xC0, 0xDF, "three"), (0xE0, 0xEF, "wyde"),
    (0xF0, 0xF1, "jump"), (0xF2, 0xF5, "relative"), (0xF6, 0xF7, "put"), (0xF8, 0xF8, "pop"), (0xF9, 0xF9, "one"),
    (0xFA, 0xFA, "save"), (0xFB, 0xFB, "unsave"), (0xFC, 0xFC, "one"), (0xFD, 0xFD, "free"), (0xFE, 0xFE, "get"),
    (0xFF, 0xFF, "free"),
)

# The lists of operands that a shape accepts. Each operand has a kind and the bytes of the instruction that it fills:
# T all three, W the last two, A the operand of an address. A byte not filled is 0.
#   register, byte, wyde, tribyte: a register, or a pure value below 2^8, 2^16, 2^24
#   either:  a register, or a byte with the second code
#   loose:   a register or a byte, with one code
#   near, far:  the target of a relative address of 16 or 24 bits
#   base:    a register, which means that register plus 0, or a pure address that a GREG is near
FORMS = {
    "three": (("register X", "register Y", "either Z"),),
    "registers": (("register X", "register Y", "register Z"),),
    "round": (("register X", "register Z"), ("register X", "byte Y", "register Z")),
    "round or byte": (("register X", "either Z"), ("register X", "byte Y", "either Z")),
    "negate": (("register X", "either Z"), ("register X", "byte Y", "either Z")),
    "relative": (("register X", "near A"),),
    "memory": (("register X", "base A"), ("register X", "register Y", "either Z")),
    "memory pure": (("byte X", "base A"), ("byte X", "register Y", "either Z")),
    "wyde": (("register X", "wyde W"),),
    "jump": (("far A",),),
    "put": (("byte X", "either Z"),),
    "get": (("register X", "byte Z"),),
    "save": (("register X", "byte Z"),),
    "unsave": (("register Z",), ("byte X", "register Z")),
    "pop": (("tribyte T",), ("byte X", "wyde W")),
    "one": (("tribyte T",),),
    "free": (("tribyte T",), ("loose X", "wyde W"), ("loose X", "loose Y", "loose Z")),
}

PSEUDO_OPERATIONS = ("IS", "LOC", "PREFIX", "GREG", "LOCAL", "BYTE", "WYDE", "TETRA", "OCTA")

SPECIAL_NAMES = ("rB rD rE rH rJ rM rR rBB rC rN rO rS rI rT rTT rK rQ rU rV rG rL rA rF rP rW rX rY rZ "
                 "rWW rXX rYY rZZ").split()


def _names():
    """The base name of each of the 256 codes."""
    names = [None] * 256
    for first, star, row in ROWS:
        for place, name in enumerate(row.split()):
            width = 2 if star else 1
            for code in range(first + width * place, first + width * (place + 1)):
                names[code] = name
    return names


def _predefined():
    """The predefined symbols, by their complete names."""
    rows = [(name, code) for code, name in enumerate(SPECIAL_NAMES)]
    for place, letter in enumerate("DVWIOUZX"):
        rows += [(f"{letter}_BIT", 0x80 >> place), (f"{letter}_Handler", 0x10 * (place + 1))]
    groups = ("StdIn StdOut StdErr", "TextRead TextWrite BinaryRead BinaryWrite BinaryReadWrite",
              "Halt Fopen Fclose Fread Fgets Fgetws Fwrite Fputs Fputws Fseek Ftell",
              "ROUND_CURRENT ROUND_OFF ROUND_UP ROUND_DOWN ROUND_NEAR")
    for group in groups:
        rows += [(name, number) for number, name in enumerate(group.split())]
    rows += [("Data_Segment", 0x2 << 60), ("Pool_Segment", 0x4 << 60), ("Stack_Segment", 0x6 << 60),
             ("Inf", 0x7FF << 52)]
    return {b":" + name.encode(): number for name, number in rows}


NAME_OF = _names()
CODE_OF = {name: code for code, name in reversed(list(enumerate(NAME_OF)))}
PREDEFINED = _predefined()


def shape_of(code):
    """The shape of the operands of a code."""
    return next(shape for first, last, shape in SHAPES if first <= code <= last)


SHAPE_OF = [shape_of(code) for code in range(256)]


def find(name):
    """What an opcode field names: ("pseudo", name), ("code", lowest code), ("LDA",), ("SET",), or None."""
    text = name.decode("latin-1")
    if text in PSEUDO_OPERATIONS:
        return "pseudo", text
    if text in ("LDA", "SET"):
        return (text,)
    return ("code", CODE_OF[text]) if text in CODE_OF else None
