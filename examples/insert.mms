* insert.mms: RESUME inserts an instruction that the program makes: five of them are tried on 12 and 5.
* rX holds kind 1 (rY and rZ are the operands) in its first byte, and the instruction in its low tetra.
        LOC   Data_Segment
        GREG  @
Codes   BYTE  #20,#24,#18,#1c,#c6,0      ADD, SUB, MUL, DIV, XOR
        LOC   Data_Segment+8
Digits  OCTA  0,0,0
End     BYTE  #a,0

codes   IS    $0
word    IS    $1
place   IS    $2
result  IS    $3
        LOC   #100
Main    LDA   codes,Codes
        SET   $4,0              so that $3 and $4 are local
        SET   result,12
        PUT   rY,result
        PUT   rZ,5
1H      LDBU  word,codes
        BZ    word,Done
        SLU   word,word,8
        INCL  word,3            X of the instruction is 3: its result goes to $3
        SLU   word,word,16
        INCH  word,#0100        kind 1
        PUT   rX,word
        GETA  place,2F
        PUT   rW,place          where to go on
        RESUME 0                performs the instruction, with rY and rZ
2H      SET   $5,result
        PUSHJ $4,Number
        ADDU  codes,codes,1
        JMP   1B
Done    SET   $255,0
        TRAP  0,Halt,0

* Number: prints $0, which is not negative, in decimal.
Number  LDA   $1,End
1H      DIV   $0,$0,10
        GET   $2,rR
        ADD   $2,$2,'0'
        SUBU  $1,$1,1
        STBU  $2,$1
        PBP   $0,1B
        SET   $255,$1
        TRAP  0,Fputs,StdOut
        POP   0,0
