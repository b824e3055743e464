" The file type of templates: `jinja`. A folder called templates has templates alone.
autocmd BufRead,BufNewFile *.jinja,*.jinja2,*.j2,*.jt set filetype=jinja
autocmd BufRead,BufNewFile */templates/*.html,*/templates/*.txt,*/templates/*.xml set filetype=jinja
