* sort.mms: sorts the bytes of its argument by insertion, and prints them.
        LOC   Data_Segment
        GREG  @
Newline BYTE  #a,0

text    IS    $2
j       IS    $3
i       IS    $4
x       IS    $5
y       IS    $6
test    IS    $7
        LOC   #100
Main    LDOU  text,$1,8         the argument after the name of the program
        BZ    text,Done
        SET   j,0
Next    LDBU  x,text,j          the bytes before x are in order
        BZ    x,Print
        SUB   i,j,1
1H      BN    i,2F
        LDBU  y,text,i
        CMP   test,y,x
        PBNP  test,2F
        ADDU  test,text,1
        STBU  y,test,i          y goes up by one place
        SUB   i,i,1
        JMP   1B
2H      ADDU  test,text,1
        STBU  x,test,i
        ADD   j,j,1
        JMP   Next
Print   SET   $255,text
        TRAP  0,Fputs,StdOut
        LDA   $255,Newline
        TRAP  0,Fputs,StdOut
Done    SET   $255,0
        TRAP  0,Halt,0
