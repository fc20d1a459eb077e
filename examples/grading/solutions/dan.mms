* dan.mms: is refused, since MMIX has no such operation.
        LOC   #100
Main    LOAD  $2,$1,8
        TRAP  0,Halt,0
