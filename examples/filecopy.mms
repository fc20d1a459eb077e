* filecopy.mms: copies the file that its first argument names to the one that its second names.
from    IS    3                 handles of the two files
to      IS    4
size    IS    1000
        LOC   Data_Segment
        GREG  @
Open    OCTA  0,BinaryRead      what Fopen wants: the address of a name, and a mode
Create  OCTA  0,BinaryWrite
In      OCTA  Buffer,size
Out     OCTA  Buffer,0
Usage   BYTE  "two names, please",#a,0
Missing BYTE  "a file cannot be opened",#a,0
        LOC   Data_Segment+#100
Buffer  OCTA  0

n       IS    $2
        LOC   #100
Main    CMP   n,$0,3            the name of the program and two more
        PBZ   n,1F
        LDA   $255,Usage
        JMP   Fail
1H      LDOU  n,$1,8
        STOU  n,Open
        LDOU  n,$1,16
        STOU  n,Create
        LDA   $255,Open
        TRAP  0,Fopen,from
        BNZ   $255,2F
        LDA   $255,Create
        TRAP  0,Fopen,to
        BZ    $255,Copy
2H      LDA   $255,Missing
Fail    TRAP  0,Fputs,StdErr
        SET   $255,1
        TRAP  0,Halt,0
Copy    LDA   $255,In
        TRAP  0,Fread,from
        SET   n,size
        ADD   n,n,$255          how many bytes came
        BNP   n,Close
        STO   n,Out+8
        LDA   $255,Out
        TRAP  0,Fwrite,to
        JMP   Copy
Close   TRAP  0,Fclose,from
        TRAP  0,Fclose,to
        SET   $255,0
        TRAP  0,Halt,0
