" Command scripts of the Amiga: by a directive or a call of amishell-execute in the first line, or by the names that the Amiga gives.
autocmd BufNewFile,BufRead [Ss]tartup-[Ss]equence,[Uu]ser-[Ss]tartup,[Ss]hell-[Ss]tartup setfiletype amigascript
autocmd BufNewFile,BufRead * if getline(1) =~? '^\.\(key\|bra\|ket\|def\|dot\|dol\)\>' || getline(1) =~ '^#!.*\<amishell-execute\>' | setfiletype amigascript | endif
