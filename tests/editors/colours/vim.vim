" Writes a letter for each byte of $BALSA_SOURCE to $BALSA_COLOURS, line by line, as the syntax file colours it.
execute 'edit' fnameescape($BALSA_SOURCE)
let s:letters = {'Control': 'w', 'Structure': 'w', 'Modifier': 'w', 'WordOperator': 'w', 'Bits': 'w', 'BehindNumber': 'w',
      \ 'Name': 'n', 'Call': 'n', 'Declared': 'n', 'Number': 'd', 'Symbol': 's', 'Comment': 'c', 'Nested': 'c', 'Todo': 'c'}
let s:lines = []
for s:line in range(1, line('$'))
  let s:found = ''
  for s:column in range(1, strlen(getline(s:line)))
    let s:name = synIDattr(synID(s:line, s:column, 1), 'name')
    let s:found .= get(s:letters, substitute(s:name, '^balsa', '', ''), '?')
  endfor
  call add(s:lines, s:found)
endfor
call writefile(s:lines, $BALSA_COLOURS)
qall!
