" Process files and talks, and Rattle, which is Rust with contracts.
autocmd BufNewFile,BufRead *.adept,*.talk setfiletype adept
autocmd BufNewFile,BufRead *.rt setfiletype rattle
