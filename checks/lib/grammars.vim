" Writes Vim's syntax highlighting of the open text to the file $OUT, in the letters of checks/lib/grammars.mjs.
let s:letters = {'mcs4Comment': 'c', 'mcs4Label': 'l', 'mcs4Constant': 'k', 'mcs4Instruction': 'i', 'mcs4Directive': 'd',
  \ 'mcs4Register': 'r', 'mcs4Number': 'n', 'mcs4Name': 'v', 'mcs4BoardComment': 'c', 'mcs4BoardFace': 'c', 'mcs4BoardTable': 't',
  \ 'mcs4BoardKey': 'p', 'mcs4BoardString': 's', 'mcs4BoardNumber': 'n'}
let s:lines = []
for s:line in range(1, line('$'))
  let s:row = ''
  for s:column in range(1, strlen(getline(s:line)))
    let s:letter = get(s:letters, synIDattr(synID(s:line, s:column, 1), 'name'), '.')
    let s:row .= getline(s:line)[s:column - 1] =~ '\s' && s:letter !~ '[cs]' ? '.' : s:letter
  endfor
  call add(s:lines, s:row)
endfor
call writefile(s:lines, $OUT)
qall!
