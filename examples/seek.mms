* seek.mms: writes a file, changes one byte in the middle, and prints the file. The status is its length.
file    IS    5
        LOC   Data_Segment
        GREG  @
Open    OCTA  Name,BinaryReadWrite
Write   OCTA  Text,9
Change  OCTA  Dot,1
Read    OCTA  Buffer,9
Name    BYTE  "seek.out",0
Text    BYTE  "mmix mal",#a
Dot     BYTE  "."
        LOC   Data_Segment+#80
Buffer  OCTA  0,0
        LOC   #100
Main    LDA   $255,Open
        TRAP  0,Fopen,file
        LDA   $255,Write
        TRAP  0,Fwrite,file
        SET   $255,4
        TRAP  0,Fseek,file      0 would be the first byte, -1 the end
        LDA   $255,Change
        TRAP  0,Fwrite,file
        NEG   $255,0,1
        TRAP  0,Fseek,file
        TRAP  0,Ftell,file
        SET   $0,$255           the place at the end: the length
        SET   $255,0
        TRAP  0,Fseek,file
        LDA   $255,Read
        TRAP  0,Fread,file
        LDA   $255,Buffer
        TRAP  0,Fputs,StdOut
        TRAP  0,Fclose,file
        SET   $255,$0
        TRAP  0,Halt,0
