* copy.mms: copies standard input to standard output; the status says whether that failed.
size    IS    4096
        LOC   Data_Segment
        GREG  @
Into    OCTA  Buffer,size       what Fread wants: where to, and how many bytes
From    OCTA  Buffer,0          what Fwrite wants; how many is filled in
Buffer  OCTA  0                 the buffer goes on after this octa
        LOC   #100
Main    LDA   $255,Into
        TRAP  0,Fread,StdIn
        SET   $0,size
        ADD   $0,$255,$0        Fread answers how many bytes, less the size
        BNP   $0,Done           nothing came, or the call failed
        STO   $0,From+8
        LDA   $255,From
        TRAP  0,Fwrite,StdOut
        BZ    $255,Main         0: all was written
        SET   $255,1
        TRAP  0,Halt,0
Done    ZSN   $255,$0,1         -1 where Fread failed
        TRAP  0,Halt,0
