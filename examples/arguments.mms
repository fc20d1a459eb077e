* arguments.mms: prints each argument on a line; the first is the name of the program.
count   IS    $0                how many there are, as the machine starts
pointer IS    $1                the address of the address of the first one
        LOC   Data_Segment
        GREG  @
Newline BYTE  #a,0
        LOC   #100
Main    LDOU  $255,pointer,0    a pointer of zero comes after the last
        BZ    $255,Done
        TRAP  0,Fputs,StdOut
        LDA   $255,Newline
        TRAP  0,Fputs,StdOut
        ADDU  pointer,pointer,8
        JMP   Main
Done    SET   $255,count
        TRAP  0,Halt,0
