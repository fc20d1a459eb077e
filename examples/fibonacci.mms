* fibonacci.mms: Fibonacci number 12 by a recursion that forgets nothing; it is the status.
        LOC   #100
Main    SET   $1,12
        PUSHJ $0,Fib            $1 becomes $0 of Fib, and its result comes back as $0
        SET   $255,$0
        TRAP  0,Halt,0

* Fib: the number with the index $0.
n       IS    $0
first   IS    $1
link    IS    $2
Fib     CMP   first,n,2
        PBNN  first,1F
        POP   1,0               the numbers 0 and 1 are their own
1H      GET   link,rJ           another PUSHJ will change rJ
        SUB   $4,n,1
        PUSHJ $3,Fib
        SET   first,$3
        SUB   $4,n,2
        PUSHJ $3,Fib
        ADD   $0,first,$3
        PUT   rJ,link
        POP   1,0
