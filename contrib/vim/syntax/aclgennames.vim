" Naming files of aclgen: networks (*.net) and services (*.svc).
if exists('b:current_syntax')
  finish
endif
syntax case match

" A name is defined in front of the first `=` of a line.
syntax match aclgenNamesBad /^[^=#]\+\ze=/
syntax match aclgenNamesName /^\s*[A-Za-z0-9_-]\+\ze\s*=/
syntax match aclgenNamesPrefix /\<\d\{1,3}\%(\.\d\{1,3}\)\{3}\%(\/\d\+\)\?\>/
syntax match aclgenNamesPrefix /[0-9A-Fa-f]*:[0-9A-Fa-f:.]*\%(\/\d\+\)\?/
syntax match aclgenNamesPorts /\<\d\+\%(-\d\+\)\?\/[a-z0-9]\+\>/
syntax match aclgenNamesComment /#.*/ contains=aclgenNamesTodo
syntax keyword aclgenNamesTodo TODO FIXME XXX contained

highlight default link aclgenNamesName Identifier
highlight default link aclgenNamesBad Error
highlight default link aclgenNamesPrefix Number
highlight default link aclgenNamesPorts Number
highlight default link aclgenNamesComment Comment
highlight default link aclgenNamesTodo Todo

let b:current_syntax = 'aclgennames'
