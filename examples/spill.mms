* spill.mms: a recursion that hides 300 registers; the status is how many of them had to leave the ring.
        LOC   #100
Main    SET   $1,60
        PUSHJ $0,Dive
        SET   $255,$0
        TRAP  0,Halt,0

* Dive: goes $0 levels down. At the bottom it looks at rS, as an ordinary program does not.
Dive    BZ    $0,1F
        GET   $2,rJ
        SUB   $5,$0,1
        PUSHJ $4,Dive           hides $0 to $4
        SET   $0,$4
        PUT   rJ,$2
        POP   1,0
1H      GET   $0,rS
        SETH  $1,#6000          where the register stack begins
        SUBU  $0,$0,$1
        SRU   $0,$0,3
        POP   1,0
