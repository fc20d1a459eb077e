* maximum.mms: the largest number of a table, and its place there.
n       IS    8
        LOC   Data_Segment
        GREG  @
Table   OCTA  31,41,59,26,53,58,97,93
Digits  OCTA  0,0,0             room for the digits of a number
End     BYTE  #a,0

table   IS    $0
k       IS    $1                8 times the place that is looked at
largest IS    $2
place   IS    $3                8 times the place of the largest
x       IS    $4
test    IS    $5
        LOC   #100
Main    LDA   table,Table
        SET   k,8*(n-1)
        LDO   largest,table,k   the last one is the largest so far
        SET   place,k
Loop    SUB   k,k,8
        BN    k,Tell
        LDO   x,table,k
        CMP   test,x,largest
        PBNP  test,Loop
        SET   largest,x
        SET   place,k
        JMP   Loop
Tell    SET   $7,largest
        PUSHJ $6,Number
        SR    $255,place,3      the status is the place, from 0
        TRAP  0,Halt,0

* Number: prints $0, which is not negative, in decimal.
Number  LDA   $1,End            the digits are made from the last one on
1H      DIV   $0,$0,10
        GET   $2,rR             the remainder
        ADD   $2,$2,'0'
        SUBU  $1,$1,1
        STBU  $2,$1
        PBP   $0,1B
        SET   $255,$1
        TRAP  0,Fputs,StdOut
        POP   0,0
