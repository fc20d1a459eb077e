* factorial.mms: the factorials of 1, 5, 10 and 20. Names of a subroutine have a prefix of its own.
        LOC   Data_Segment
        GREG  @
Wanted  BYTE  1,5,10,20,0
        LOC   Data_Segment+8
Digits  OCTA  0,0,0
End     BYTE  #a,0

pointer IS    $0
        LOC   #100
Main    LDA   pointer,Wanted
1H      LDBU  $2,pointer
        BZ    $2,2F
        PUSHJ $1,Factorial
        SET   $2,$1
        PUSHJ $1,Number
        ADDU  pointer,pointer,1
        JMP   1B
2H      SET   $255,0
        TRAP  0,Halt,0

        PREFIX Factorial:
n       IS    $0
link    IS    $1
:Factorial BNZ n,1F
        SET   n,1
        POP   1,0
1H      GET   link,:rJ
        SUB   $3,n,1
        PUSHJ $2,:Factorial
        MUL   n,n,$2
        PUT   :rJ,link
        POP   1,0

        PREFIX Number:
n       IS    $0
text    IS    $1
digit   IS    $2
:Number LDA   text,:End
1H      DIV   n,n,10
        GET   digit,:rR
        ADD   digit,digit,'0'
        SUBU  text,text,1
        STBU  digit,text
        PBP   n,1B
        SET   $255,text
        TRAP  0,:Fputs,:StdOut
        POP   0,0
