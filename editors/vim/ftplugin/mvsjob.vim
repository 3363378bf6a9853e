" What a buffer with a script of mvsjob has.
if exists('b:did_ftplugin')
  finish
endif
let b:did_ftplugin = 1
setlocal commentstring=*\ %s comments=:* noexpandtab textwidth=0 colorcolumn=256
setlocal errorformat=%f:%l:%c:\ %m
setlocal makeprg=mvsjob\ --strict\ %
let b:undo_ftplugin = 'setlocal commentstring< comments< expandtab< textwidth< colorcolumn< errorformat< makeprg<'

" With the plug-in vim-lsp, the server starts by itself. Neovim has its own (editors/nvim).
if exists('*lsp#register_server') && executable('mvsjob-lsp') && !exists('g:mvsjob_lsp_registered')
  let g:mvsjob_lsp_registered = 1
  call lsp#register_server({'name': 'mvsjob-lsp', 'cmd': {_ -> ['mvsjob-lsp']}, 'allowlist': ['mvsjob']})
endif
