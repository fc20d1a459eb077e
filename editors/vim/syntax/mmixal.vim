" Vim syntax file
" Language:     MMIXAL, the assembly language of MMIX
" Filenames:    *.mms
" License:      MIT (a part of mmixware)

if exists("b:current_syntax")
  finish
endif

let s:cpo_save = &cpo
set cpo&vim

" A statement begins at the front of a line, or right after a semicolon: a label, an operation and operands, with blanks
" between them. One that begins with another byte is a comment, and so is what follows the operands. Blanks are the bytes
" 9, 11, 12, 13 and 32; letters are A to Z, a to z, :, _ and all above 126. \k is a letter or a digit here.
syn case match
syn iskeyword @,48-57,_,58,127-255

syn cluster mmixalStatement      contains=mmixalComment,mmixalGap,mmixalLabel,mmixalWrongLabel,mmixalLocalLabel
syn cluster mmixalOperation      contains=mmixalComment,mmixalUnknown,mmixalInstruction,mmixalDirective
syn cluster mmixalAfterOperation contains=mmixalWrong,mmixalBeforeOperands,mmixalSemicolon
syn cluster mmixalTerm           contains=mmixalString,mmixalCharacter,mmixalNumber,mmixalLocal,mmixalRegister,mmixalSpecial,
      \mmixalConstant,mmixalOperator,mmixalHere,mmixalName

syn match mmixalComment ".\+" contained contains=@Spell

syn match mmixalStart "^" nextgroup=@mmixalStatement
syn match mmixalSemicolon ";" contained nextgroup=@mmixalStatement

syn match mmixalLabel      "\k\+"          contained nextgroup=mmixalWrong,mmixalLabelGap
syn match mmixalWrongLabel "\d\k*"         contained nextgroup=mmixalWrong,mmixalLabelGap
syn match mmixalLocalLabel "\dH\k\@!"      contained nextgroup=mmixalWrong,mmixalLabelGap
syn match mmixalGap        "[ \t\r\x0b\x0c]\+" contained nextgroup=@mmixalOperation
syn match mmixalLabelGap   "[ \t\r\x0b\x0c]\+" contained nextgroup=@mmixalOperation,mmixalWrong

syn match mmixalUnknown "\k\+" contained nextgroup=@mmixalAfterOperation
syn match mmixalWrong   "[^ \t\r\x0b\x0c;A-Za-z0-9:_][^;]*" contained

syn match mmixalBeforeOperands "[ \t\r\x0b\x0c]\+" contained nextgroup=mmixalOperands,mmixalOpen,mmixalSemicolon
syn match mmixalOpen "[\"'].*" contained
syn match mmixalOperands "\%(\"[^\"]*\"\|'.'\|[^ \t\r\x0b\x0c;\"']\)\+" contained contains=@mmixalTerm
      \ nextgroup=mmixalOpen,mmixalAfterOperands,mmixalSemicolon
syn match mmixalAfterOperands "[ \t\r\x0b\x0c]\+" contained nextgroup=mmixalComment,mmixalSemicolon

syn match mmixalName      "\k\+"              contained
syn match mmixalNumber    "\d\+\k\@!"         contained
syn match mmixalNumber    "#\x\+\k\@!"        contained
syn match mmixalLocal     "\d[BF]\k\@!"       contained
syn match mmixalRegister  "\$\d*\k\@!"        contained
syn match mmixalOperator  "[-+*/%<>&|^~]"     contained
syn match mmixalHere      "@"                 contained
syn match mmixalString    "\"[^\"]*\""        contained contains=@Spell
syn match mmixalCharacter "'.'"               contained

" words of the tables (editors/words.py writes them)
syn keyword mmixalInstruction contained nextgroup=@mmixalAfterOperation 16ADDU 2ADDU 4ADDU 8ADDU ADD ADDU AND
syn keyword mmixalInstruction contained nextgroup=@mmixalAfterOperation ANDN ANDNH ANDNL ANDNMH ANDNML BDIF
syn keyword mmixalInstruction contained nextgroup=@mmixalAfterOperation BEV BN BNN BNP BNZ BOD BP BZ CMP CMPU
syn keyword mmixalInstruction contained nextgroup=@mmixalAfterOperation CSEV CSN CSNN CSNP CSNZ CSOD CSP CSWAP
syn keyword mmixalInstruction contained nextgroup=@mmixalAfterOperation CSZ DIV DIVU FADD FCMP FCMPE FDIV FEQL
syn keyword mmixalInstruction contained nextgroup=@mmixalAfterOperation FEQLE FINT FIX FIXU FLOT FLOTU FMUL
syn keyword mmixalInstruction contained nextgroup=@mmixalAfterOperation FREM FSQRT FSUB FUN FUNE GET GETA GO
syn keyword mmixalInstruction contained nextgroup=@mmixalAfterOperation INCH INCL INCMH INCML JMP LDA LDB LDBU
syn keyword mmixalInstruction contained nextgroup=@mmixalAfterOperation LDHT LDO LDOU LDSF LDT LDTU LDUNC
syn keyword mmixalInstruction contained nextgroup=@mmixalAfterOperation LDVTS LDW LDWU MOR MUL MULU MUX MXOR
syn keyword mmixalInstruction contained nextgroup=@mmixalAfterOperation NAND NEG NEGU NOR NXOR ODIF OR ORH ORL
syn keyword mmixalInstruction contained nextgroup=@mmixalAfterOperation ORMH ORML ORN PBEV PBN PBNN PBNP PBNZ
syn keyword mmixalInstruction contained nextgroup=@mmixalAfterOperation PBOD PBP PBZ POP PREGO PRELD PREST
syn keyword mmixalInstruction contained nextgroup=@mmixalAfterOperation PUSHGO PUSHJ PUT RESUME SADD SAVE SET
syn keyword mmixalInstruction contained nextgroup=@mmixalAfterOperation SETH SETL SETMH SETML SFLOT SFLOTU SL
syn keyword mmixalInstruction contained nextgroup=@mmixalAfterOperation SLU SR SRU STB STBU STCO STHT STO STOU
syn keyword mmixalInstruction contained nextgroup=@mmixalAfterOperation STSF STT STTU STUNC STW STWU SUB SUBU
syn keyword mmixalInstruction contained nextgroup=@mmixalAfterOperation SWYM SYNC SYNCD SYNCID TDIF TRAP TRIP
syn keyword mmixalInstruction contained nextgroup=@mmixalAfterOperation UNSAVE WDIF XOR ZSEV ZSN ZSNN ZSNP
syn keyword mmixalInstruction contained nextgroup=@mmixalAfterOperation ZSNZ ZSOD ZSP ZSZ
syn keyword mmixalDirective contained nextgroup=@mmixalAfterOperation BYTE GREG IS LOC LOCAL OCTA PREFIX TETRA
syn keyword mmixalDirective contained nextgroup=@mmixalAfterOperation WYDE
syn keyword mmixalSpecial contained rA rB rBB rC rD rE rF rG rH rI rJ rK rL rM rN rO rP rQ rR rS rT rTT rU rV
syn keyword mmixalSpecial contained rW rWW rX rXX rY rYY rZ rZZ :rA :rB :rBB :rC :rD :rE :rF :rG :rH :rI :rJ
syn keyword mmixalSpecial contained :rK :rL :rM :rN :rO :rP :rQ :rR :rS :rT :rTT :rU :rV :rW :rWW :rX :rXX :rY
syn keyword mmixalSpecial contained :rYY :rZ :rZZ
syn keyword mmixalConstant contained BinaryRead BinaryReadWrite BinaryWrite D_BIT D_Handler Data_Segment
syn keyword mmixalConstant contained Fclose Fgets Fgetws Fopen Fputs Fputws Fread Fseek Ftell Fwrite Halt
syn keyword mmixalConstant contained I_BIT I_Handler Inf O_BIT O_Handler Pool_Segment ROUND_CURRENT ROUND_DOWN
syn keyword mmixalConstant contained ROUND_NEAR ROUND_OFF ROUND_UP Stack_Segment StdErr StdIn StdOut TextRead
syn keyword mmixalConstant contained TextWrite U_BIT U_Handler V_BIT V_Handler W_BIT W_Handler X_BIT X_Handler
syn keyword mmixalConstant contained Z_BIT Z_Handler :BinaryRead :BinaryReadWrite :BinaryWrite :D_BIT
syn keyword mmixalConstant contained :D_Handler :Data_Segment :Fclose :Fgets :Fgetws :Fopen :Fputs :Fputws
syn keyword mmixalConstant contained :Fread :Fseek :Ftell :Fwrite :Halt :I_BIT :I_Handler :Inf :O_BIT
syn keyword mmixalConstant contained :O_Handler :Pool_Segment :ROUND_CURRENT :ROUND_DOWN :ROUND_NEAR
syn keyword mmixalConstant contained :ROUND_OFF :ROUND_UP :Stack_Segment :StdErr :StdIn :StdOut :TextRead
syn keyword mmixalConstant contained :TextWrite :U_BIT :U_Handler :V_BIT :V_Handler :W_BIT :W_Handler :X_BIT
syn keyword mmixalConstant contained :X_Handler :Z_BIT :Z_Handler
" end of the words

syn sync minlines=1

hi def link mmixalComment     Comment
hi def link mmixalLabel       Function
hi def link mmixalLocalLabel  Label
hi def link mmixalWrongLabel  Error
hi def link mmixalInstruction Statement
hi def link mmixalDirective   PreProc
hi def link mmixalUnknown     Error
hi def link mmixalWrong       Error
hi def link mmixalOpen        Error
hi def link mmixalRegister    Identifier
hi def link mmixalSpecial     Special
hi def link mmixalConstant    Constant
hi def link mmixalNumber      Number
hi def link mmixalLocal       Label
hi def link mmixalString      String
hi def link mmixalCharacter   Character
hi def link mmixalOperator    Operator
hi def link mmixalHere        Special
hi def link mmixalSemicolon   Delimiter

let b:current_syntax = "mmixal"

let &cpo = s:cpo_save
unlet s:cpo_save
