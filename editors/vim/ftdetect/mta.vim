" sources of mta_sim: those that end in .mta; and those that end in .asm, in any folder, whose first line is a comment
" with the word mta_sim, or one of whose first lines is a directive .entry. For another file: :set filetype=mta
autocmd BufRead,BufNewFile *.mta setfiletype mta
autocmd BufRead,BufNewFile *.asm call s:SetWhereOurs()

function! s:SetWhereOurs() abort
  if getline(1) =~# '^\s*;.*\<mta_sim\>' || match(getline(1, 500), '^\s*\.entry\>') >= 0
    set filetype=mta
  endif
endfunction
