* peterson.mms: two processors add 1 to one octa by a load and a store, and exclude each other by loads and stores alone
* (G. L. Peterson, Myths about the mutual exclusion problem, 1981).
*   asm peterson.mms peterson.mmo, and then: multi --dump SCHED peterson.mmo
me      IS    $1
mine    IS    $2               the address of its own wish, and of that of the other one
other   IS    $3
x       IS    $4
        LOC   Data_Segment
        GREG  @
Sum     OCTA  0
Wishes  OCTA  0,0              1 while a processor wants to add, or does
Last    OCTA  0                who came last, and lets the other one go first
        LOC   #100
Main    LDA   x,Wishes
        8ADDU mine,me,x
        NEGU  other,1,me       the number of the other one is 1-me
        8ADDU other,other,x
        STCO  1,mine,0
        STO   me,Last
Wait    LDO   x,other,0
        BZ    x,Add            the other one does not want to
        LDO   x,Last
        CMPU  x,x,me
        BZ    x,Wait           it does, and came first
Add     LDO   x,Sum
        ADDU  x,x,1
        STO   x,Sum
        STCO  0,mine,0
        TRAP  0,Halt,0
