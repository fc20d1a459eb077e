"""A lexer of Pygments for MMIXAL, the assembly language of MMIX.

    pygmentize -x -l editors/pygments/mmixal.py:MmixalLexer hello.mms

License: MIT (a part of mmixware)
"""
from pygments.lexer import RegexLexer, bygroups, default
from pygments.token import Comment, Error, Keyword, Name, Number, Operator, Punctuation, String, Whitespace

__all__ = ["MmixalLexer"]

# words of the tables (editors/words.py writes them)
INSTRUCTIONS = frozenset("""
    16ADDU 2ADDU 4ADDU 8ADDU ADD ADDU AND ANDN ANDNH ANDNL ANDNMH ANDNML BDIF BEV BN BNN BNP BNZ BOD BP BZ CMP
    CMPU CSEV CSN CSNN CSNP CSNZ CSOD CSP CSWAP CSZ DIV DIVU FADD FCMP FCMPE FDIV FEQL FEQLE FINT FIX FIXU
    FLOT FLOTU FMUL FREM FSQRT FSUB FUN FUNE GET GETA GO INCH INCL INCMH INCML JMP LDA LDB LDBU LDHT LDO LDOU
    LDSF LDT LDTU LDUNC LDVTS LDW LDWU MOR MUL MULU MUX MXOR NAND NEG NEGU NOR NXOR ODIF OR ORH ORL ORMH ORML
    ORN PBEV PBN PBNN PBNP PBNZ PBOD PBP PBZ POP PREGO PRELD PREST PUSHGO PUSHJ PUT RESUME SADD SAVE SET SETH
    SETL SETMH SETML SFLOT SFLOTU SL SLU SR SRU STB STBU STCO STHT STO STOU STSF STT STTU STUNC STW STWU SUB
    SUBU SWYM SYNC SYNCD SYNCID TDIF TRAP TRIP UNSAVE WDIF XOR ZSEV ZSN ZSNN ZSNP ZSNZ ZSOD ZSP ZSZ
""".split())
DIRECTIVES = frozenset("""
    BYTE GREG IS LOC LOCAL OCTA PREFIX TETRA WYDE
""".split())
SPECIAL = frozenset("""
    rA rB rBB rC rD rE rF rG rH rI rJ rK rL rM rN rO rP rQ rR rS rT rTT rU rV rW rWW rX rXX rY rYY rZ rZZ
""".split())
CONSTANTS = frozenset("""
    BinaryRead BinaryReadWrite BinaryWrite D_BIT D_Handler Data_Segment Fclose Fgets Fgetws Fopen Fputs Fputws
    Fread Fseek Ftell Fwrite Halt I_BIT I_Handler Inf O_BIT O_Handler Pool_Segment ROUND_CURRENT ROUND_DOWN
    ROUND_NEAR ROUND_OFF ROUND_UP Stack_Segment StdErr StdIn StdOut TextRead TextWrite U_BIT U_Handler V_BIT
    V_Handler W_BIT W_Handler X_BIT X_Handler Z_BIT Z_Handler
""".split())
# end of the words

BLANK = r"[\t\x0b\x0c\r ]"
LETTER = r"[A-Za-z0-9:_\x7f-\U0010ffff]"


def operation(lexer, match):
    """The token of an operation by its name."""
    word = match[0]
    kind = Keyword if word in INSTRUCTIONS else Keyword.Declaration if word in DIRECTIVES else Error
    yield match.start(), kind, word


def symbol(lexer, match):
    """The token of a symbol in an operand."""
    word = match[0].removeprefix(":")
    kind = Name.Builtin if word in SPECIAL else Name.Constant if word in CONSTANTS else Name
    yield match.start(), kind, match[0]


class MmixalLexer(RegexLexer):
    """For sources in MMIXAL.

    A statement begins at the front of a line, or right after a semicolon: a label, an operation and operands, with blanks
    between them. One that begins with another byte is a comment, and so is what follows the operands.
    """

    name = "MMIXAL"
    aliases = ["mmixal", "mmix"]
    filenames = ["*.mms"]
    mimetypes = ["text/x-mmixal"]

    tokens = {
        "root": [
            (r"\n", Whitespace),
            (rf"[0-9]H(?!{LETTER})", Name.Label, "after-label"),
            (rf"[0-9]{LETTER}*", Error, "after-label"),
            (rf"{LETTER}+", Name.Label, "after-label"),
            (rf"({BLANK}+)(?={LETTER})", Whitespace, "operation"),
            (rf"{BLANK}+(?=\n)", Whitespace),
            (rf"({BLANK}*)([^\n]+)", bygroups(Whitespace, Comment.Single)),
        ],
        "after-label": [
            (rf"({BLANK}+)(?={LETTER})", Whitespace, ("#pop", "operation")),
            (rf"({BLANK}*)([^\n]*)", bygroups(Whitespace, Error), "#pop"),
        ],
        "operation": [
            (rf"{LETTER}+", operation, ("#pop", "before-operands")),
        ],
        "before-operands": [
            (rf"{BLANK}+", Whitespace, ("#pop", "operands")),
            (r";", Punctuation, "#pop"),
            (r"\n", Whitespace, "#pop"),
            (r"[^\n;]+", Error, "#pop"),
        ],
        "operands": [
            (r";", Punctuation, "#pop"),
            (r"\n", Whitespace, "#pop"),
            (rf"{BLANK}+", Whitespace, ("#pop", "after-operands")),
            (r'"[^"\n]*"', String.Double),
            (r"'[^\n]'", String.Char),
            (r"[\"'][^\n]*", Error),
            (r"#[0-9A-Fa-f]+", Number.Hex),
            (rf"[0-9][BF](?!{LETTER})", Name.Label),
            (r"[0-9]+", Number.Integer),
            (r"\$[0-9]*", Name.Variable),
            (rf"{LETTER}+", symbol),
            (r"@", Name.Builtin.Pseudo),
            (r"[-+*/%<>&|^~]+", Operator),
            (r"[(),]", Punctuation),
            (r".", Error),
        ],
        "after-operands": [
            (r";", Punctuation, "#pop"),
            (r"[^;\n][^\n]*", Comment.Single, "#pop"),
            default("#pop"),
        ],
    }
