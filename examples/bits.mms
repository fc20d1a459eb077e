* bits.mms: the bytes of an octa are turned round by one MOR, and its ones are counted.
        LOC   Data_Segment
        GREG  @
Turn    OCTA  #0102040810204080 byte i has bit 7-i: byte 7-i of the operand
Number  BYTE  #a,"!denrut"
        BYTE  0
        LOC   #100
Main    LDO   $0,Number
        LDO   $1,Turn
        MOR   $2,$0,$1
        STO   $2,Number
        LDA   $255,Number
        TRAP  0,Fputs,StdOut
        SADD  $255,$0,0         the status: how many bits are 1
        TRAP  0,Halt,0
