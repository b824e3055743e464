" The language server of jt in Vim with the plugin ALE: source this file in your vimrc.
let g:jt_command = get(g:, 'jt_command', 'python3 -m jt lsp')
let g:jt_options = get(g:, 'jt_options', {})

" Returns the root of the project of a buffer.
function! JtRoot(buffer) abort
  let l:file = fnamemodify(bufname(a:buffer), ':p')
  let l:templates = finddir('templates', fnamemodify(l:file, ':h') . ';')
  return empty(l:templates) ? fnamemodify(l:file, ':h') : fnamemodify(l:templates, ':p:h:h')
endfunction

call ale#Set('jinja_jt_executable', split(g:jt_command)[0])
call ale#linter#Define('jinja', {
\   'name': 'jt',
\   'lsp': 'stdio',
\   'executable': {buffer -> split(g:jt_command)[0]},
\   'command': {buffer -> join(['%e'] + split(g:jt_command)[1:])},
\   'project_root': function('JtRoot'),
\   'initialization_options': {buffer -> g:jt_options},
\})
