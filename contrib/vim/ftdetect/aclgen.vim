" Policies of aclgen (*.pol, and what they include, *.inc) and its naming files (*.net, *.svc). The last three endings are
" others' too, so there the text has to look like aclgen's.

function! s:LooksLike(pattern) abort
  return !empty(filter(getline(1, 200), 'v:val =~# a:pattern'))
endfunction

autocmd BufNewFile,BufRead *.pol setfiletype aclgen
autocmd BufRead *.inc if s:LooksLike('^\s*\%(term\s\+[A-Za-z0-9_-]\+\s*{\|[a-z-]\+::\)') | set filetype=aclgen | endif
autocmd BufRead *.net,*.svc if s:LooksLike('^\s*[A-Za-z0-9_-]\+\s*=') | set filetype=aclgennames | endif
