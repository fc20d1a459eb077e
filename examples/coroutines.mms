* coroutines.mms: two coroutines. One gives the characters of a text without the blanks, the other writes them in groups
* of three. Each goes on where it was when the other calls it: GO keeps the one's place and takes the other's.
        LOC   Data_Segment
        GREG  @
Text    BYTE  "th e qu  i ck br own f ox",0
Letter  BYTE  0,0
Blank   BYTE  " ",0
Newline BYTE  #a,0
giver   GREG  0                 where the giver goes on
writer  GREG  0                 where the writer goes on
x       GREG  0                 the character that goes from one to the other, 0 at the end

p       IS    $0
k       IS    $1
        LOC   #100
Main    GETA  giver,Giver

Writer  SET   k,3
1H      GO    writer,giver,0    a character, please
        BZ    x,2F
        STBU  x,Letter
        LDA   $255,Letter
        TRAP  0,Fputs,StdOut
        SUB   k,k,1
        PBP   k,1B
        LDA   $255,Blank
        TRAP  0,Fputs,StdOut
        JMP   Writer
2H      LDA   $255,Newline
        TRAP  0,Fputs,StdOut
        SET   $255,0
        TRAP  0,Halt,0

Giver   LDA   p,Text
1H      LDBU  x,p
        ADDU  p,p,1
        CMP   $2,x,' '
        BZ    $2,1B
        GO    giver,writer,0    here it is
        JMP   1B
