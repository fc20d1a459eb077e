* hello.mms: prints a text.
        LOC   Data_Segment
        GREG  @                 the base for addresses in the data segment
Text    BYTE  "Hello, reader",#a,0
        LOC   #100
Main    LDA   $255,Text         Fputs wants the address of the text in $255
        TRAP  0,Fputs,StdOut
        SET   $255,0            the status
        TRAP  0,Halt,0
