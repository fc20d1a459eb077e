* topsort.mms: prints the objects a to f in an order that has j before k for each pair jk of a table.
* Each object has a count of those that have to be printed before it, and a linked list of those that follow it.
n       IS    6
        LOC   Data_Segment
        GREG  @
Pairs   BYTE  "dadbacbcecfe",0
Letter  BYTE  0,#a,0
        LOC   Data_Segment+#20
Count   OCTA  0,0,0,0,0,0
First   OCTA  0,0,0,0,0,0       the addresses of the lists; a node is two octas, next and object
Nodes   OCTA  0                 nodes are taken from here on

p       IS    $0
count   IS    $1
first   IS    $2
node    IS    $3
j       IS    $4                objects are 8 times their number, from 0
k       IS    $5
x       IS    $6
ready   IS    $7                a stack of objects that may be printed, after the nodes
bottom  IS    $8
left    IS    $9                how many are not printed yet
        LOC   #100
Main    LDA   p,Pairs
        LDA   count,Count
        LDA   first,First
        LDA   node,Nodes
        SET   left,n
Read    LDBU  j,p,0
        BZ    j,Begin
        LDBU  k,p,1
        ADDU  p,p,2
        SUB   j,j,'a';          SL j,j,3
        SUB   k,k,'a';          SL k,k,3
        LDO   x,count,k
        ADD   x,x,1
        STO   x,count,k         one more before k
        LDO   x,first,j
        STO   x,node,0
        STO   k,node,8
        STO   node,first,j      k is the first that follows j
        ADDU  node,node,16
        JMP   Read
Begin   SET   bottom,node
        SET   ready,node
        SET   k,8*n
1H      SUB   k,k,8
        LDO   x,count,k
        PBNZ  x,2F
        STO   k,ready
        ADDU  ready,ready,8
2H      PBP   k,1B
Print   CMPU  x,ready,bottom
        BZ    x,Done
        SUBU  ready,ready,8
        LDO   j,ready
        SUB   left,left,1
        SR    x,j,3
        ADD   x,x,'a'
        STBU  x,Letter
        LDA   $255,Letter
        TRAP  0,Fputs,StdOut
        LDO   p,first,j
3H      BZ    p,Print
        LDO   k,p,8
        LDO   x,count,k
        SUB   x,x,1
        STO   x,count,k
        PBNZ  x,4F
        STO   k,ready           nothing is left before k
        ADDU  ready,ready,8
4H      LDO   p,p,0
        JMP   3B
Done    SET   $255,left         not 0 where the pairs go round in a circle
        TRAP  0,Halt,0
