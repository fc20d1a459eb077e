* characters.mms: a table of the characters 32 to 127, sixteen on a line.
        LOC   Data_Segment
        GREG  @
Line    BYTE  "# 0 ",0          the first hexadecimal digit is put in
        LOC   Data_Segment+8
Cell    BYTE  "x ",0
Newline BYTE  #a,0

c       IS    $0
x       IS    $1
        LOC   #100
Main    SET   c,32
Row     SRU   x,c,4
        ADD   x,x,'0'
        STBU  x,Line+1
        LDA   $255,Line
        TRAP  0,Fputs,StdOut
1H      CMP   x,c,127
        CSNZ  x,x,c             127 is no character to print
        CSZ   x,x,' '
        STBU  x,Cell
        LDA   $255,Cell
        TRAP  0,Fputs,StdOut
        ADD   c,c,1
        AND   x,c,15
        PBNZ  x,1B
        LDA   $255,Newline
        TRAP  0,Fputs,StdOut
        CMP   x,c,128
        PBN   x,Row
        SET   $255,0
        TRAP  0,Halt,0
