divert(-1)
The words of a page of release notes: whatever is written here goes to no output.

release(NUMBER, DATE)   the heading, which every entry after it is counted under
entry(TEXT)             a change; they are numbered
thanks(NAME, ...)       whom it is due to, at the end of the page

define(`release', `define(`entries', `0')Release $1, of $2
')
define(`entry', `define(`entries', incr(entries))entries. $1')
define(`thanks', `m4wrap(`
Thanks to names($@).
')')
define(`names', `ifelse($#, 1, `$1', $#, 2, `$1 and $2', `$1, names(shift($@))')')
divert(0)dnl
