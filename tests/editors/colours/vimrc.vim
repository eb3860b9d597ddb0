" What a user's own vimrc has to have.
set nomodeline encoding=utf-8 fileencodings=utf-8 fileformats=unix
filetype plugin on
syntax enable
