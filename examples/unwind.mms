* unwind.mms: SAVE marks a place, and UNSAVE comes back to it from the depth of a recursion.
        LOC   Data_Segment
        GREG  @
Frame   OCTA  0                 the address that SAVE gave
Depth   OCTA  0
        LOC   #100
Main    SET   $0,3
        SAVE  $255,0            $0 is hidden now, with the globals and special registers
        STO   $255,Frame
        SET   $1,100
        PUSHJ $0,Dive
Back    SET   $255,$0           $0 is 3 again
        LDO   $1,Depth
        ADD   $255,$255,$1
        TRAP  0,Halt,0

* Dive: goes on until $0 is 60, and then leaves the whole recursion at once.
Dive    CMP   $1,$0,60
        BZ    $1,1F
        SUB   $2,$0,1
        PUSHJ $1,Dive
        POP   0,0
1H      STO   $0,Depth
        LDO   $0,Frame
        UNSAVE $0
        JMP   Back
