" Vim and Neovim take a file whose name ends in .mpd for XML, and `setfiletype` would leave it so. A file that begins with a tag is XML.
autocmd BufRead,BufNewFile *.mpd if getline(1) !~# '^\s*<' | set filetype=mpd | endif
