" Vim syntax of the source texts of mta_sim, made by editors/make of the assembler's table of names.
if exists('b:current_syntax')
  finish
endif
syntax case match
syntax match mtaWide "\<\(LIT\|LITH\|TLIT\)\>"
syntax match mtaMemory "\<\(LOAD\|STORE\|FADD\)\(\.[NFS]\)\?\>"
syntax match mtaMemory "\<\(TAGGET\|TAGSET\|PURGE\)\>"
syntax match mtaArithmetic "\<\(ADD\|SUB\|MUL\|AND\|OR\|XOR\|ANDN\|SHL\|SHR\|SAR\|TALLY\|LTS\|LTU\|PTR\)\(\.T\)\?\>"
syntax match mtaControl "\<\(NOP\|JUMP\|SKIP\|CALL\|XCHG\|TSET\|TGET\|XGET\|RESERVE\|CREATE\|QUIT\|QUITP\|MASK\)\>"
syntax match mtaCondition "\(SKIP\|JUMP\)\@<=\s\+\(ALWAYS\|EQ\|NE\|LT\|GE\|LE\|GT\|LTU\|GEU\|LEU\|GTU\|NEG\|POS\|OV\|NOV\)\>"
syntax match mtaRegister "\<\(r\([0-9]\|[12][0-9]\|3[01]\)\|t[0-7]\)\>"
syntax match mtaNumber "-\?\<\([0-9]\+\|0x[0-9A-Fa-f]\+\)\>"
syntax match mtaLookahead "@[0-7]\>"
syntax match mtaDirective "\.\(profile\|slim\|chain\|retry\|trap\|entry\|word\|data\|fill\)\>"
syntax match mtaLabel "^\s*[A-Za-z_][A-Za-z0-9_]*:"
syntax match mtaComment ";.*$"
highlight default link mtaCondition Constant
highlight default link mtaRegister Identifier
highlight default link mtaNumber Number
highlight default link mtaLookahead Special
highlight default link mtaDirective PreProc
highlight default link mtaWide Statement
highlight default link mtaMemory Type
highlight default link mtaArithmetic Statement
highlight default link mtaControl Keyword
highlight default link mtaLabel Label
highlight default link mtaComment Comment
let b:current_syntax = 'mta'
