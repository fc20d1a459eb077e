* list.mms: puts the letters of its argument on a linked list, each in front of those before, and prints the list.
* A node is two octas: the address of the next node (0 for none) and a letter.
        LOC   Data_Segment
        GREG  @
Letter  BYTE  0,0
Newline BYTE  #a,0
        LOC   Data_Segment+8
Nodes   OCTA  0                 nodes are taken from here on

text    IS    $2
list    IS    $3                the address of the first node, 0 for an empty list
node    IS    $4                where the next node will be
x       IS    $5
        LOC   #100
Main    LDOU  text,$1,8         the argument after the name of the program
        SET   list,0
        LDA   node,Nodes
        BZ    text,Print
1H      LDBU  x,text
        BZ    x,Print
        STOU  list,node,0
        STOU  x,node,8
        SET   list,node
        ADDU  node,node,16
        ADDU  text,text,1
        JMP   1B
Print   BZ    list,2F
        LDOU  x,list,8
        STBU  x,Letter
        LDA   $255,Letter
        TRAP  0,Fputs,StdOut
        LDOU  list,list,0
        JMP   Print
2H      LDA   $255,Newline
        TRAP  0,Fputs,StdOut
        SET   $255,0
        TRAP  0,Halt,0
