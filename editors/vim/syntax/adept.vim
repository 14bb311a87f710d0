" Process files of Rushowa, and talks with its server: docs/FILE_FORMAT.md and docs/SERVE.md.
if exists("b:current_syntax")
  finish
endif
syntax iskeyword @,48-57,_,-,.
syntax keyword adeptWord act actor after and around branch case change choice conditional create delete done element end head insert install int loop migrate move optional parallel phase read role roles start sync text type unread unsync unwrite with withdraw write xor
syntax match adeptHeader "^\s*adept\s\+[123]\>"
syntax match adeptQuestion "^\s*?\s\+\(report\|type\|case\|cases\|items\|types\|actors\|count\|last\|lines\|if\|move\)\>"
syntax match adeptComment "^\s*#.*$"
syntax region adeptText start=+"+ skip=+\\[\\"]+ end=+"+ oneline
syntax match adeptNumber "\(^\|[ \t=]\)\@<=-\?\d\+\>"
highlight default link adeptHeader PreProc
highlight default link adeptWord Keyword
highlight default link adeptQuestion Statement
highlight default link adeptComment Comment
highlight default link adeptText String
highlight default link adeptNumber Number
let b:current_syntax = "adept"
