" Each .txt file that is saved is committed by the keep_file beside this file (docs/COMMIT.md). Why one was not is shown until Enter is pressed, and so is
" what the commit told.
let g:keep_file = expand('<sfile>:p:h') . '/keep_file'
autocmd BufWritePost *.txt let g:kept = system(shellescape(g:keep_file) . ' ' . shellescape(expand('<afile>:p'))) | if v:shell_error || g:kept =~# '^keep_file:' | call inputsave() | call confirm(trim(g:kept), '&OK', 1, 'Error') | call inputrestore() | endif
