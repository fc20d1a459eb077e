* threads.mms: two threads take turns. What one of them has in its registers is saved while the other runs.
* UNSAVE brings back the globals too, so what the threads share is in memory.
        LOC   Data_Segment
        GREG  @
Other   OCTA  0                 the frame of the thread that waits
Letter  BYTE  0,0
Newline BYTE  #a,0
        LOC   #100
Main    PUSHJ $0,Start          thread 1 comes back from here, when thread 2 yields for the first time
        SET   $0,'a'
1H      SET   $2,$0
        PUSHJ $1,Write
        PUSHJ $1,Yield
        ADD   $0,$0,1
        CMP   $1,$0,'f'
        PBN   $1,1B
        LDA   $255,Newline
        TRAP  0,Fputs,StdOut
        SET   $255,0
        TRAP  0,Halt,0

* Start: saves thread 1 and goes on as thread 2, higher up on the register stack.
Start   SAVE  $255,0
        STO   $255,Other
        PUSHJ $200,@+4          room for what thread 1 will hide
        PUSHJ $200,@+4
        PUSHJ $200,@+4
        SET   $0,1
2H      PUSHJ $1,Yield
        ADD   $2,$0,'0'
        PUSHJ $1,Write
        ADD   $0,$0,1
        JMP   2B

* Yield: saves this thread and goes on with the other one, after its own call of Yield.
Yield   SAVE  $255,0
        LDO   $0,Other
        STO   $255,Other
        UNSAVE $0
        POP   0,0               rJ is that of the other thread

* Write: prints the character $0.
Write   STBU  $0,Letter
        LDA   $255,Letter
        TRAP  0,Fputs,StdOut
        POP   0,0
