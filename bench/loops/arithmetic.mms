* arithmetic.mms: 47 million steps of sums, products, shifts and bits.
        LOC   #100
Main    SET   $1,0
        SETML $2,#0050          #500000 rounds
1H      ADDU  $1,$1,$2
        MULU  $3,$1,13
        XOR   $1,$1,$3
        SLU   $4,$1,7
        SUBU  $1,$4,$1
        SRU   $4,$1,11
        OR    $1,$1,$4
        SUB   $2,$2,1
        PBNZ  $2,1B
        SET   $255,0
        TRAP  0,Halt,0
