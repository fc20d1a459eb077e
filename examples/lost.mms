* lost.mms: each processor adds 1 to one octa in memory, by a load and a store.
*   asm lost.mms lost.mmo, and then: multi --dump SCHED lost.mmo
        LOC   Data_Segment
        GREG  @
Sum     OCTA  0
        LOC   #100
Main    LDO   $3,Sum
        ADDU  $3,$3,1
        STO   $3,Sum           what another one stored since the load is lost
        TRAP  0,Halt,0
