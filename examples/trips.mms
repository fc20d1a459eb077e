* trips.mms: a division by zero and an overflow, first with trips to handlers of the program, then without.
        LOC   D_Handler         16: four instructions have room
        PUSHJ $255,Divided
        PUT   rJ,$255           the trip has put rJ there
        GET   $255,rB           and $255 into rB
        RESUME 0                back after the instruction
        LOC   V_Handler         32
        PUSHJ $255,Overflowed
        PUT   rJ,$255
        GET   $255,rB
        RESUME 0

        LOC   Data_Segment
        GREG  @
Zero    BYTE  "divided by zero",#a,0
Large   BYTE  "overflow",#a,0

        LOC   #100
Main    SET   $0,(D_BIT|V_BIT)<<8
        PUT   rA,$0             both events may trip
        PUSHJ $0,Try
        PUT   rA,0              now they only leave their bits in rA
        PUSHJ $0,Try
        GET   $255,rA
        TRAP  0,Halt,0

Try     SET   $0,7
        DIV   $1,$0,0
        NEG   $0,0,1
        SRU   $0,$0,1           2^63 - 1
        ADD   $0,$0,1
        POP   0,0

Divided SET   $0,$255           $255 holds the old rJ, and Fputs needs it
        LDA   $255,Zero
        JMP   1F
Overflowed SET $0,$255
        LDA   $255,Large
1H      TRAP  0,Fputs,StdOut
        SET   $255,$0
        POP   0,0
