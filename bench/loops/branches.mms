* branches.mms: 38 million steps, half of them jumps and branches that go either way.
        LOC   #100
Main    SETML $2,#0060          #600000 rounds
        SET   $1,0
1H      AND   $3,$2,1
        BZ    $3,2F
        ADDU  $1,$1,1
        JMP   3F
2H      BOD   $1,3F
        ADDU  $1,$1,3
3H      SUB   $2,$2,1
        PBP   $2,1B
        SET   $255,0
        TRAP  0,Halt,0
