* counter.mms: each processor adds 1 to one octa in memory, and no count is lost.
*   asm counter.mms counter.mmo, and then: multi --dump SCHED counter.mmo
        LOC   Data_Segment
        GREG  @
Sum     OCTA  0
        LOC   #100
Main    LDO   $3,Sum
        PUT   rP,$3            what the octa is expected to be
        ADDU  $4,$3,1
        CSWAP $4,Sum           stores $4 if it still is; then $4 is 1, and else 0
        BZ    $4,Main          another one was faster: try again
        TRAP  0,Halt,0
