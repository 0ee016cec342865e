" Takes a .spec or .scm file for one of scooter by its first line that is neither blank nor a comment: others have files
" of these names too, RPM its .spec and Scheme its .scm.

function! s:Detect()
  let l:first = ''
  for l:line in getline(1, 200)
    if l:line !~# '^\s*\%(#.*\)\=$'
      let l:first = l:line
      break
    endif
  endfor
  if l:first =~# '^\s*\%(\%(static\|model\|principal\)\s\|\u\w*\s*\%(::\|(\)\)'
    set filetype=scooter
  endif
endfunction

autocmd BufRead *.spec,*.scm call s:Detect()
