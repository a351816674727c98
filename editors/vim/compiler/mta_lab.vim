" mta_lab check as Vim's :make
let current_compiler = 'mta_lab'
CompilerSet makeprg=mta_lab\ check\ %:S
CompilerSet errorformat=%f:%l:%c:\ %trror:\ %m,%f:%l:%c:\ %tarning:\ %m,%-G%.%#
