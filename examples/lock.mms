* lock.mms: each processor adds 1 to one octa by a load and a store, while it has a lock.
*   asm lock.mms lock.mmo, and then: multi --dump SCHED lock.mmo
        LOC   Data_Segment
        GREG  @
Sum     OCTA  0
Lock    OCTA  0                0 while it is open, 1 while one has it
        LOC   #100
Main    PUT   rP,0             the lock is expected to be open
        SET   $3,1
        CSWAP $3,Lock          takes it, and $3 is 1; where it is taken, $3 is 0
        BZ    $3,Main          try again
        LDO   $3,Sum
        ADDU  $3,$3,1
        STO   $3,Sum           no other one is between these
        STCO  0,Lock           opens it
        TRAP  0,Halt,0
