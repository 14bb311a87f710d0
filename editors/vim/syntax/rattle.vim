" Rattle: Rust with contracts.
if exists("b:current_syntax")
  finish
endif
runtime! syntax/rust.vim
syntax keyword rattleContract requires ensures ghost invariant
syntax match rattleTactic "#\[\(tactic\|law\)[^]]*\]"
highlight default link rattleContract PreProc
highlight default link rattleTactic Special
let b:current_syntax = "rattle"
