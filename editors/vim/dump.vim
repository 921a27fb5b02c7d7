" What stands on each line in which colour, for tools/gate/check_highlighting.py: vim -es -u NONE -N -S dump.vim
" Writes LINE:COLUMN KIND TEXT for each stretch of one kind in the files that $FILES names to the file $DUMP.
execute 'set runtimepath^=' . expand('<sfile>:p:h')
filetype on
syntax on
let s:lines = []
for s:file in split($FILES)
  execute 'edit ' . s:file
  call add(s:lines, '== ' . s:file)
  for s:line in range(1, line('$'))
    let s:text = getline(s:line)
    let s:start = 1
    while s:start <= len(s:text)
      let s:kind = synIDattr(synID(s:line, s:start, 1), 'name')
      let s:end = s:start + 1
      while s:end <= len(s:text) && synIDattr(synID(s:line, s:end, 1), 'name') ==# s:kind
        let s:end += 1
      endwhile
      if s:kind !=# ''
        let s:kind = s:kind ==# 'larchBehindMark' ? 'comment' : tolower(substitute(s:kind, '^larch', '', ''))
        call add(s:lines, s:line . ':' . s:start . ' ' . s:kind . ' ' . strpart(s:text, s:start - 1, s:end - s:start))
      endif
      let s:start = s:end
    endwhile
  endfor
endfor
call writefile(s:lines, $DUMP)
qall!
