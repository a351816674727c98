" Source texts of mta_sim: comments, what K explains, mta_lab check for :make, and mta_lab fmt as :MtaFormat. There is no
" guard by b:did_ftplugin: in a file .asm the plugin of assemblers has run before, and has set it.
setlocal commentstring=;\ %s comments=:;
setlocal keywordprg=mta_lab\ explain
compiler mta_lab
command! -buffer MtaFormat update | execute '!mta_lab fmt ' . shellescape(expand('%')) | edit
let b:undo_ftplugin = 'setlocal commentstring< comments< keywordprg< makeprg< errorformat< | delcommand MtaFormat'
