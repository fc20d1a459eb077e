* lines.mms: numbers the lines of standard input, up to 9 of them.
        LOC   Data_Segment
        GREG  @
Wanted  OCTA  Line,80           what Fgets wants: where to, and the room there
Number  BYTE  "0 ",0
        LOC   Data_Segment+#20
Line    OCTA  0
count   IS    $0
x       IS    $1
        LOC   #100
Main    SET   count,0
1H      LDA   $255,Wanted
        TRAP  0,Fgets,StdIn
        BN    $255,Done         nothing is left
        ADD   count,count,1
        ADD   x,count,'0'
        STBU  x,Number
        LDA   $255,Number
        TRAP  0,Fputs,StdOut
        LDA   $255,Line
        TRAP  0,Fputs,StdOut
        CMP   x,count,9
        PBN   x,1B
Done    SET   $255,count
        TRAP  0,Halt,0
