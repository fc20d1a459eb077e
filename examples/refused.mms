* refused.mms: has two faults, and is refused at the first one.
        LOC   #100
Main    SET   $0,1000
        ADD   $0,$0,1000        a number after a register has to fit one byte
        SUBTRACT $0,$0,1        there is no such operation
        TRAP  0,Halt,0
