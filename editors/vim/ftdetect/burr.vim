" Plans and assemblies of burr, by the ends of their names.
autocmd BufNewFile,BufRead *.plan setfiletype burrplan
autocmd BufNewFile,BufRead *.assembly setfiletype burrassembly
