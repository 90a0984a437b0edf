" Made by tools/make-share from the tables of programs and of their options.
au BufNewFile,BufRead * if getline(1) =~# '^#!.*\<execlineb\>' | setlocal filetype=execline commentstring=#\ %s | endif
