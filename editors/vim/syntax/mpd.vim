" Colours for rank scripts of mpdbg (docs/LANGUAGE.md, "Tokens"), for Vim and Neovim.
if exists('b:current_syntax')
  finish
endif
syntax keyword mpdDeclaration mpd ranks var req
syntax keyword mpdControl if else while
syntax keyword mpdCall print assert send ssend isend issend recv irecv wait waitany barrier
syntax keyword mpdMessage to from tag status
syntax keyword mpdConstant any rank size
syntax match mpdNumber /\<[0-9]\+/
syntax match mpdComment /#.*$/
highlight default link mpdDeclaration Type
highlight default link mpdControl Conditional
highlight default link mpdCall Function
highlight default link mpdMessage Keyword
highlight default link mpdConstant Constant
highlight default link mpdNumber Number
highlight default link mpdComment Comment
let b:current_syntax = 'mpd'
