* compiled.mms: 25 million steps as a C compiler makes them without optimization: each variable is in a frame in
* memory, texts are read and written byte by byte, functions are called by their addresses, some of them far away. Each
* turn makes a text upper case and lower case in turn, reverses it and takes its length.
sp      GREG  0
        LOC   Data_Segment
text    GREG  @
Text    BYTE  "The quick brown fox jumps over the lazy dog, and the dog sleeps on.",0

        LOC   #100
Main    SETML sp,#10
        INCH  sp,#2000
        SUBU  sp,sp,32
        SETL  $0,0
        STO   $0,sp,0
        JMP   Test

% for (i = 0; i < turns; i++) { change (text, 'A', 'Z', 32); change (text, 'a', 'z', -32); reverse (text); sum += length (text); }
Body    LDA   $4,Text
        SETL  $5,'A'
        SETL  $6,'Z'
        SETL  $7,32
        GETA  $2,Change
        PUSHGO $3,$2,0
        LDA   $4,Text
        SETL  $5,'a'
        SETL  $6,'z'
        NEG   $7,0,32
        GETA  $2,Change
        PUSHGO $3,$2,0
        LDA   $4,Text
        PUSHJ $3,Reverse
        LDA   $4,Text
        PUSHJ $3,Length
        LDO   $1,sp,8
        ADDU  $1,$1,$3
        STO   $1,sp,8
        LDO   $0,sp,0
        ADDU  $0,$0,1
        STO   $0,sp,0
Test    LDO   $0,sp,0
        SETL  $1,6000
        CMP   $1,$0,$1
        BN    $1,Body
        LDO   $255,sp,8
        TRAP  0,Halt,0

% int length (char *s) { int n = 0; while (*s) { s++; n++; } return n; }
Length  SUBU  sp,sp,16
        STOU  $0,sp,0
        STCO  0,sp,8
        JMP   2F
1H      LDOU  $1,sp,0
        ADDU  $1,$1,1
        STOU  $1,sp,0
        LDO   $1,sp,8
        ADD   $1,$1,1
        STO   $1,sp,8
2H      LDOU  $1,sp,0
        LDB   $1,$1,0
        BNZ   $1,1B
        LDO   $0,sp,8
        ADDU  sp,sp,16
        POP   1,0

% far from the functions that call it, as in a large program
        LOC   #20000
% void change (char *s, int from, int to, int by) { for (; *s; s++) if (*s >= from && *s <= to) *s += by; }
Change  SUBU  sp,sp,32
        STOU  $0,sp,0
        STO   $1,sp,8
        STO   $2,sp,16
        STO   $3,sp,24
        JMP   3F
1H      LDOU  $4,sp,0
        LDB   $4,$4,0
        LDO   $5,sp,8
        CMP   $5,$4,$5
        BN    $5,2F
        LDO   $5,sp,16
        CMP   $5,$4,$5
        BP    $5,2F
        LDO   $5,sp,24
        ADD   $4,$4,$5
        LDOU  $5,sp,0
        STB   $4,$5,0
2H      LDOU  $4,sp,0
        ADDU  $4,$4,1
        STOU  $4,sp,0
3H      LDOU  $4,sp,0
        LDB   $4,$4,0
        BNZ   $4,1B
        ADDU  sp,sp,32
        POP   0,0

% void reverse (char *s) { char *t = s + length (s) - 1; while (s < t) { char c = *s; *s++ = *t; *t-- = c; } }
Reverse GET   $1,rJ
        SUBU  sp,sp,32
        STOU  $0,sp,0
        STOU  $1,sp,24
        LDOU  $3,sp,0
        PUSHJ $2,Length
        LDOU  $1,sp,0
        ADDU  $1,$1,$2
        SUBU  $1,$1,1
        STOU  $1,sp,8
        JMP   2F
1H      LDOU  $1,sp,0
        LDB   $1,$1,0
        STB   $1,sp,16
        LDOU  $2,sp,8
        LDB   $2,$2,0
        LDOU  $1,sp,0
        STB   $2,$1,0
        ADDU  $1,$1,1
        STOU  $1,sp,0
        LDOU  $2,sp,8
        LDB   $1,sp,16
        STB   $1,$2,0
        SUBU  $2,$2,1
        STOU  $2,sp,8
2H      LDOU  $1,sp,0
        LDOU  $2,sp,8
        CMPU  $1,$1,$2
        BN    $1,1B
        LDOU  $1,sp,24
        PUT   rJ,$1
        ADDU  sp,sp,32
        POP   0,0
