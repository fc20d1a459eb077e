* memory.mms: 46 million steps that load and store octas, tetras and bytes.
        LOC   Data_Segment
Base    GREG  @
        LOC   #100
Main    SETML $2,#0040          #400000 rounds
        SET   $1,0
1H      AND   $3,$2,#f8
        LDO   $4,Base,$3
        ADDU  $4,$4,$2
        STO   $4,Base,$3
        LDT   $5,Base,$3
        STB   $5,Base,$1
        LDBU  $6,Base,$3
        ADDU  $1,$1,$6
        AND   $1,$1,#ff
        SUB   $2,$2,1
        PBNZ  $2,1B
        SET   $255,0
        TRAP  0,Halt,0
