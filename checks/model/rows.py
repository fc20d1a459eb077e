"""Sources, objects and tables of the worked rows.

In a source `/` ends a line and `_` at the start of a line is a leading blank. Objects are in hexadecimal.
"""

FIRST = "_LOC #100/Text BYTE 104,105,10,0/Main GETA $255,Text/_TRAP 0,7,1/_TRAP 0,0,0"
HELLO = ("argv IS $1/_LOC #100/Main LDOU $255,argv,0/_TRAP 0,Fputs,StdOut/_GETA $255,String/_TRAP 0,Fputs,StdOut/"
         "_TRAP 0,Halt,0/String BYTE \", world\",#a,0")
HELLO_OBJECT = ("98090101 00000000 98060001 2e6d6d73 98010001 00000100 98070003 8fff0100 00000701 f4ff0000 00000701"
                "00000000 98040003 2c20776f 726c640a 00000000 980a00ff 00000000 00000100 980b0000 203a304d 20612069"
                "026e0100 82305320 74207220 69206e02 67011483 20612072 20670f76 01810000 980c000a")
FIRST_OBJECT = ("98090101 00000000 98060001 2e6d6d73 98010001 00000100 98070002 68690a00 f5ffffff 00000701 00000000"
                "980a00ff 00000000 00000104 980b0000 203a304d 20612069 026e0104 82205420 65207802 74010081 980c0006")
SMALL_OBJECT = ("98090101 36f4a363 98010001 00000100 00000000 980a00ff 00000000 00000100 980b0000 203a4040 10404020"
                "4d206120 69016e00 81000000 980c0005")
OVERFLOW = ("_LOC #20/_GET $255,rX/_TRAP 0,Halt,0/_LOC #100/Main SETL $1,#4000/_PUT rA,$1/_NEG $0,0,1/_SRU $0,$0,1/"
            "_ADD $0,$0,1/_TRAP 0,Halt,0")
RECURSION = ("_LOC #100/Main SETL $1,300/_PUSHJ $0,Rec/_SET $255,$0/_TRAP 0,Halt,0/Rec BZ $0,1F/_GET $1,rJ/"
             "_SUBU $3,$0,1/_PUSHJ $2,Rec/_ADDU $0,$0,$2/_PUT rJ,$1/_POP 1,0/1H POP 1,0")
SPILL = "Main PUSHJ $99,@+4/" + "_PUSHJ $99,@+4/" * 2 + "_GET $255,rS/_TRAP 0,Halt,0"
FRAME = ("_LOC #100/Main SETL $0,5/_SAVE $255,0/_SETL $0,9/_PUSHJ $3,@+4/_UNSAVE 0,$255/_SET $255,$0/_TRAP 0,Halt,0")
LINE = ("_LOC Data_Segment/_GREG @/Args OCTA Buf,8/Buf OCTA 0/_LOC #100/Main LDA $255,Args/_TRAP 0,Fgets,StdIn/"
        "_TRAP 0,Halt,0")
INSERTION_END = "/_GETA $3,2F/_PUT rW,$3/_RESUME 0/2H SET $255,$0/_TRAP 0,Halt,0"
CONSOLE_OUTPUT = """mmix> mmix> hellobreak x #0000000000000108
mmix> $1=4611686018427387912
mmix> M#2000000000000000=#0000000000000000
mmix> $1=#0000000000000005
mmix> #0000000000000108 f4ff0003 GETA $255,#0000000000000114 $255=#0000000000000114
mmix> """

# sources that are refused: the line, the fault, and the line of the reference
REFUSALS = {
    "": (1, 82, 0), "Main SWYM/_SWYM/_JMP x/_SWYM/_JMP x": (3, 80, 0), "_JMP 0": (1, 82, 0),
    "_LOC #100": (1, 82, 0), "Main BZ $0,x/_LOC Main+4*65536/x TRAP 0,Halt,0": (3, 85, 1),
    "_PREFIX p:/:Main TRAP 0,Halt,0": (2, 17, 0), "Halt IS 0": (1, 31, 0), "x IS 1/x IS 2": (2, 30, 0),
    "Main IS $1": (1, 83, 0), "2X SWYM": (1, 3, 0), "a": (1, 7, 0), "_FROB": (1, 39, 0), "_BYTE 256": (1, 43, 0),
    "a PREFIX b": (1, 48, 0), "a FROB x": (1, 39, 0),
    "_LOC Data_Segment/_GREG @/_LOC #100/Main LDO $0,Data_Segment+256": (4, 44, 0), "_SETL $1,-1": (1, 43, 0),
    "_ADD": (1, 40, 0), "_SAVE": (1, 40, 0), "_UNSAVE": (1, 41, 0), "_LOCAL": (1, 41, 0), "_SWYM $1": (1, 42, 0),
    "_TRAP 1,$1": (1, 42, 0), "_JMP $1": (1, 42, 0), "x IS x": (1, 17, 0), "x GREG x": (1, 17, 0),
    "x LOC x": (1, 17, 0), "Main JMP x/x IS $1": (2, 84, 1), "_LOC -8/_BYTE 1": (2, 49, 0),
    "Main JMP x/_BZ $0,x/_BZ $0,x/x IS #80000": (4, 85, 2), "1H OCTA 1F,x": (1, 81, 0), "_PREFIX +a": (1, 40, 0),
    "_PREFIX \"a\"": (1, 40, 0), "_JMP +x": (1, 17, 0), "_OCTA x+0": (1, 17, 0),
    "_LOCAL $255/Main SWYM": (2, 87, 0), "_GREG 1/_LOCAL $254/Main SWYM": (3, 87, 0), "Main JMP 1F": (1, 81, 0),
    "Main JMP x/x IS 2": (2, 89, 1), "Main JMP 2/": (1, 46, 0), "_LOC #5fffffffffffffff/_BYTE 1,1": (2, 49, 0),
    "_SWYM 1,2,3,4": (1, 40, 0), "_IS 1,2": (1, 40, 0), "_BYTE $1": (1, 42, 0), "_SET 1,2": (1, 41, 0),
    "_SET $1,65536": (1, 43, 0), "Main SWYM/_PREFIX :Main:/x IS 1/y JMP z": (4, 80, 0),
    "_JMP " + "(" * 256: (1, 18, 0), "_JMP " + "(" * 255: (1, 10, 0), "_BYTE \"\"": (1, 19, 0),
    "a" * 1025 + " IS 1": (1, 33, 0), "a" * 1024 + " IS 1": (1, 33, 0), "_BYTE " + "a" * 1024: (1, 33, 0),
    "a" * 1023 + " IS 1": (1, 82, 0), "_BZ $0,@+4*65536": (1, 45, 0), "_BZ $0,@+2": (1, 46, 0),
    "_BYTE " + "1" * 4091: (1, 1, 0), "_BYTE " + "0" * 4090: (1, 82, 0), "*" * 4097: (1, 1, 0),
    "_GREG 1/" * 1 + "".join(f"_GREG {it}/" for it in range(2, 225)): (224, 47, 0),
    "x IS 1/x IS 2;_FROB": (2, 30, 0), "x GREG 7/y IS x-x/z IS $5+(0-1)/_BYTE y,z": (4, 42, 0),
    "_SYNC 16777216": (1, 43, 0), "_FLOT $1,5,300": (1, 43, 0), "_FIX $1,2": (1, 41, 0), "_PUT 256,1": (1, 43, 0),
    "_UNSAVE 1,2": (1, 41, 0), "_POP 256,0": (1, 43, 0), "_LDO $1,1,2": (1, 41, 0), "_PRELD $1,$2,3": (1, 42, 0),
}

# sources, an address, and the tetra there
PLACED = [
    ("Main BZ $0,x/_LOC Main+4*65535/x TRAP 0,Halt,0", 0, "4200ffff"),
    ("_LOC #200/Main BZ $0,x/_LOC #100/x TRAP 0,Halt,0", 0x200, "4300ffc0"),
    ("_LOC Data_Segment/_GREG @/_LOC #100/Main LDO $0,Data_Segment+255", 0x100, "8d00feff"),
    (LINE, 0x100, "23fffe00"), ("Main BYTE 1/_LOC 0/_BYTE 3/_TETRA #98000000", 0, "02000000"),
    ("Main BYTE -128", 0, "80000000"), ("Main TETRA \"ab\"", 4, "00000062"), ("Main TRAP $1,2", 0, "00010002"),
    ("Main TRAP $1,2,$3", 0, "00010203"), ("Main PUT rJ,$3", 0, "f6040003"), ("Main PUT 4,255", 0, "f70400ff"),
    ("Main FLOT $1,3,$4", 0, "08010304"), ("Main FLOT $1,4", 0, "09010004"), ("Main FIX $1,$2", 0, "05010002"),
    ("Main NEG $1,$2", 0, "34010002"), ("Main NEG $1,3,4", 0, "35010304"), ("Main POP 1,65535", 0, "f801ffff"),
    ("Main POP", 0, "f8000000"), ("Main POP 65536", 0, "f8010000"), ("Main GET $1,rZZ", 0, "fe01001f"),
    ("Main SET $1,$2", 0, "c1010200"), ("Main SET $1,65535", 0, "e301ffff"), ("Main UNSAVE $3", 0, "fb000003"),
    ("Main SAVE $255,0", 0, "faff0000"), ("Main PRELD 3,$4,$5", 0, "9a030405"), ("Main LDO $1,$2", 0, "8d010200"),
    ("Main LDA $1,$2,$3", 0, "22010203"), ("Main JMP Main", 0, "f0000000"), ("_SWYM/Main JMP @-4", 4, "f1ffffff"),
    ("Main WYDE 1; OCTA 2", 8, "00000000"), ("Main WYDE 1; OCTA 2", 12, "00000002"),
    ("Main CSWAP $1,$2,3", 0, "95010203"), ("_GREG -4/Main LDO $0,5", 0, "8d00fe09"),
    ("_LOC -1/_TETRA 1/Main SWYM", 0, "00000001"), ("Main OCTA x/x IS 5", 4, "00000005"),
    ("Main 2ADDU $1,$2,$3", 0, "28010203"), ("Main OCTA (x)/x IS 5", 4, "00000005"),
    ("Main JMP ((1F))/1H SWYM", 0, "f0000001"), ("Main SYNC 3", 0, "fc000003"),
    ("Main STCO 5,$1,$2", 0, "b4050102"), ("Main STHT $5,$1,$2", 0, "b2050102"),
]

# objects that are refused: the byte place, and the fault
BAD_OBJECTS = {
    SMALL_OBJECT[:-8] + "980c0004": (56, 63), "98090101 00000000 980d0000": (8, 62), "": (0, 64),
    "00000000": (0, 61), "98090101 00000000 98": (8, 60), "98090201 00000000": (0, 61), "98090101": (4, 64),
    "980901": (0, 60), "98090100 98000002": (4, 63), "98090100 98090100": (4, 62), "98090100 980b0000": (4, 62),
    "98090100 980c0000": (4, 62), "98090100 98010003": (4, 63), "98090100 980a001f": (4, 63),
    "98090100 980a01ff": (4, 63), "98090100 98050010 02000000": (4, 63), "98090100 98060001 00000000": (4, 63),
    "98090100 98050011": (4, 63), "98090100 98070001": (4, 96), "98090100 98060000": (4, 96),
    "98090100 98016001 00000000 00000001": (12, 95), "98090100 98080000 00000000": (12, 64),
    "98090100 98080000 98000002": (8, 63), "98090100 98036001 00000000": (4, 95),
    "98090100 98030002 5fffffff fffffffc": (4, 95), "98090100 980a00ff 00000000 00000000 00000000": (16, 62),
    "98090100 980a00ff 00000000 00000000 980b0001": (16, 63),
    "98090100 980a00ff 00000000 00000000 980b0000": (20, 64),
    "98090100 980a00ff 00000000 00000000 980b0000 00": (20, 60),
    "98090100 980a00ff 00000000 00000000 980b0000 80000000 980c0001": (20, 72),
    "98090100 980a00ff 00000000 00000000 980b0000 00000001 980c0001": (21, 71),
    "98090100 980a00ff 00000000 00000000 980b0000 40404040 980c0001": (24, 70),
}

# processors that add 1 to one octa: by a load and a store, by CSWAP, and while they have a lock
LOST = ("_LOC Data_Segment/_GREG @/Sum OCTA 0/_LOC #100/Main LDO $3,Sum/_ADDU $3,$3,1/_STO $3,Sum/_TRAP 0,Halt,0")
COUNTER = ("_LOC Data_Segment/_GREG @/Sum OCTA 0/_LOC #100/Main LDO $3,Sum/_PUT rP,$3/_ADDU $4,$3,1/_CSWAP $4,Sum/_BZ $4,Main/"
           "_TRAP 0,Halt,0")
LOCK = ("_LOC Data_Segment/_GREG @/Sum OCTA 0/Lock OCTA 0/_LOC #100/Main PUT rP,0/_SET $3,1/_CSWAP $3,Lock/_BZ $3,Main/"
        "_LDO $3,Sum/_ADDU $3,$3,1/_STO $3,Sum/_STCO 0,Lock/_TRAP 0,Halt,0")

# a program that loses its way: the address is in $0, and it takes $1
ASTRAY = "_LOC #100/Main SETL $2,5/_GO $0,$1,0"
SUM = "_LOC #100/Main SETL $0,0/_SETL $1,10/Loop ADD $0,$0,$1/_SUB $1,$1,1/_PBP $1,Loop/_SET $255,$0/_TRAP 0,Halt,0"
