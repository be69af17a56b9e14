" `:IvyCheck` writes the model and checks it. A fault becomes the error that the cursor goes to; else the verdict is
" shown. The program is g:ivycheck, or `ivycheck` on the PATH.
if exists("b:did_ftplugin")
  finish
endif
let b:did_ftplugin = 1
setlocal commentstring=#\ %s
setlocal comments=:#
command! -buffer -bar IvyCheck call s:check()

if exists("*s:check")
  finish
endif

function! s:check() abort
  update
  let l:program = shellescape(get(g:, 'ivycheck', 'ivycheck'))
  let l:told = systemlist(l:program . ' check ' . shellescape(expand('%:p')) . ' 2>&1')
  let l:faults = []
  for l:line in l:told
    let l:place = matchlist(l:line, '^F\(\d\+\) at \(\d\+\):\(\d\+\): \(.*\)$')
    if !empty(l:place)
      let [l:code, l:row, l:column, l:words] = l:place[1:4]
      call add(l:faults, {'bufnr': bufnr('%'), 'nr': str2nr(l:code), 'lnum': str2nr(l:row),
            \ 'col': str2nr(l:column), 'type': 'F', 'text': l:words})
    endif
  endfor
  call setqflist(l:faults, 'r')
  if empty(l:faults)
    echo empty(l:told) ? 'nothing was answered' : l:told[-1]
  else
    cfirst
  endif
endfunction
