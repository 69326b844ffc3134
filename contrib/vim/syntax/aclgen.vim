" Policies of aclgen. A keyword, an action, an option or a platform that it does not know is shown as an error.
if exists('b:current_syntax')
  finish
endif
syntax case match
syntax iskeyword 33,36-122,124,126-255
" Strings run over lines.
syntax sync fromstart

syntax region aclgenBlock start=/{/ end=/}/ transparent fold contains=TOP
syntax match aclgenComment /#.*/ contains=aclgenTodo
syntax keyword aclgenTodo TODO FIXME XXX contained
syntax match aclgenInclude /^\s*#include\s\+\(['"]\).\{-}\1/ contains=aclgenPath
syntax match aclgenPath /\(['"]\).\{-}\1/ contained
syntax region aclgenString start=/"/ end=/"/

syntax keyword aclgenHeader header
syntax match aclgenTerm /\<term\>\s\+[^[:space:]{}"#]\+/ contains=aclgenTermWord
syntax keyword aclgenTermWord term contained

" What stands behind `::` is a word of its own: address::NAME.
syntax match aclgenUnknown /[^[:space:]{}"#:]\+::/
syntax match aclgenKeyword /\<\%(comment\|owner\|action\|expiration\|logging\|protocol\|option\|icmp-type\|icmp-code\)::/
syntax match aclgenKeyword /\<\%(\%(source\|destination\)-\%(address\|exclude\|port\)\|address\|port\)::/
syntax match aclgenKeyword /\<platform\%(-exclude\)\?::/
syntax match aclgenKeyword /\<target::/ nextgroup=aclgenPlatform,aclgenBadPlatform skipwhite skipempty

syntax match aclgenBadPlatform /[^[:space:]{}"#]\+/ contained
syntax match aclgenPlatform /\<\%(cisco\|juniper\|iptables\|nftables\)\>/ contained
syntax match aclgenDeny /\<\%(deny\|reject\|reject-with-tcp-rst\|DROP\)\>/
syntax match aclgenAccept /\<\%(accept\|ACCEPT\)\>/
syntax match aclgenDate /\<\d\{4}-\d\d-\d\d\>/
syntax match aclgenNumber /\<\d\+\>/
syntax match aclgenOption /\<\%(established\|tcp-established\|tcp-initial\|rst\)\>/
syntax match aclgenProtocol /\<\%(icmp\|igmp\|ipip\|tcp\|udp\|gre\|esp\|ah\|icmpv6\|ospf\|pim\|vrrp\|sctp\)\>/

highlight default link aclgenComment Comment
highlight default link aclgenTodo Todo
highlight default link aclgenInclude PreProc
highlight default link aclgenPath String
highlight default link aclgenString String
highlight default link aclgenHeader Structure
highlight default link aclgenTermWord Structure
highlight default link aclgenTerm Identifier
highlight default link aclgenKeyword Keyword
highlight default link aclgenUnknown Error
highlight default link aclgenPlatform Type
highlight default link aclgenBadPlatform Error
highlight default link aclgenDeny Exception
highlight default link aclgenAccept Statement
highlight default link aclgenDate Number
highlight default link aclgenNumber Number
highlight default link aclgenOption Constant
highlight default link aclgenProtocol Constant

let b:current_syntax = 'aclgen'
