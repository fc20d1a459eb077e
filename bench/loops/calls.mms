* calls.mms: 41 million steps of calls with PUSHJ and POP, twelve deep, with a sum at each level.
        LOC   #100
Main    SETML $0,#0007          #70000 rounds
1H      SET   $2,12
        PUSHJ $1,Down
        SUB   $0,$0,1
        PBNZ  $0,1B
        SET   $255,0
        TRAP  0,Halt,0
Down    BNP   $0,2F
        GET   $1,rJ
        SUB   $3,$0,1
        PUSHJ $2,Down
        PUT   rJ,$1
        ADDU  $0,$2,$0
2H      POP   1,0
