" Scripts of mvsjob. Files that end in .job may be others, so the first statement decides.
autocmd BufNewFile,BufRead *.mvsjob setfiletype mvsjob
autocmd BufNewFile,BufRead *.job call s:Detect()

function! s:Detect() abort
  for line in getline(1, 50)
    if line =~# '^[A-Z@#$][A-Z0-9@#$]\{0,7} \+REGION '
      setfiletype mvsjob
      return
    endif
  endfor
endfunction
