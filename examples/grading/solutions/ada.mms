* ada.mms: prints its argument backwards.
        LOC   Data_Segment
        GREG  @
Letter  BYTE  0,0
Line    BYTE  #a,0
        LOC   #100
Main    LDOU  $2,$1,8           the argument
        SET   $3,0
1H      LDBU  $4,$2,$3          $3 becomes its length
        BZ    $4,2F
        ADD   $3,$3,1
        JMP   1B
2H      BZ    $3,3F
        SUB   $3,$3,1
        LDBU  $4,$2,$3
        STBU  $4,Letter
        LDA   $255,Letter
        TRAP  0,Fputs,StdOut
        JMP   2B
3H      LDA   $255,Line
        TRAP  0,Fputs,StdOut
        SET   $255,0
        TRAP  0,Halt,0
