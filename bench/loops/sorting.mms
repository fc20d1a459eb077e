* sorting.mms: sorts 5,000 octas of a random row by insertion, then sums them; 43 million steps.
count   IS    5000
        LOC   Data_Segment
Row     GREG  @
        LOC   #100
seed    IS    $0
at      IS    $1
end     IS    $2
hole    IS    $3
key     IS    $4
left    IS    $5
value   IS    $6
test    IS    $7
Main    SETL  seed,#4b3
        SETL  end,count*8
        SET   at,0
Fill    MULU  seed,seed,201
        ADDU  seed,seed,13
        SRU   value,seed,8
        STO   value,Row,at
        ADDU  at,at,8
        CMPU  test,at,end
        PBN   test,Fill
        SET   at,8
Next    LDO   key,Row,at
        SET   hole,at
Shift   SUBU  left,hole,8
        LDO   value,Row,left
        CMPU  test,value,key
        PBNP  test,Put
        STO   value,Row,hole
        SET   hole,left
        PBNZ  hole,Shift
Put     STO   key,Row,hole
        ADDU  at,at,8
        CMPU  test,at,end
        PBN   test,Next
        SET   $255,0
        TRAP  0,Halt,0
