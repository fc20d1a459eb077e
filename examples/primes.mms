* primes.mms: the primes below 60, by the sieve of Eratosthenes.
n       IS    60
        LOC   Data_Segment
        GREG  @
Blank   BYTE  " ",0
Newline BYTE  #a,0
Pair    BYTE  0,0,0             the two digits of a number, and the end
        LOC   Data_Segment+#20
Sieve   BYTE  0                 one byte for each number; 1 where it is no prime

sieve   IS    $0
p       IS    $1
m       IS    $2                a multiple of p
test    IS    $3
one     IS    $4
tens    IS    $5
        LOC   #100
Main    LDA   sieve,Sieve
        SET   one,1
        SET   p,2
Next    LDBU  test,sieve,p
        BNZ   test,Skip
        DIV   tens,p,10
        GET   test,rR
        INCL  tens,'0'
        INCL  test,'0'
        STBU  tens,Pair
        STBU  test,Pair+1
        LDA   $255,Pair
        TRAP  0,Fputs,StdOut
        LDA   $255,Blank
        TRAP  0,Fputs,StdOut
        ADD   m,p,p
        JMP   2F
1H      STBU  one,sieve,m       m is a multiple of p
        ADD   m,m,p
2H      CMP   test,m,n
        BN    test,1B
Skip    ADD   p,p,1
        CMP   test,p,n
        BN    test,Next
        LDA   $255,Newline
        TRAP  0,Fputs,StdOut
        SET   $255,0
        TRAP  0,Halt,0
