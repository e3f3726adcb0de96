define(`closes', `m4wrap(`end of $1
')')dnl
closes(`the chapter')closes(`the section')dnl
m4wrap(`m4wrap(`the round after that
')the first round
')dnl
m4wrap(`several', `arguments, with', `spaces
')dnl
m4wrap(`and
')m4wrap(`define(`saved', `a definition')saved ')dnl
m4wrap(`n(`abcd')
')m4wrap(`le')dnl
divert(1)diverted
divert(2)issued at the end
divert(0)dnl
m4wrap(`undivert(1)brought back
')dnl
m4wrap(`incr(`x')decr(`')
')dnl
m4wrap()m4wrap dnl
saved before
define(`countdown', `$1 ifelse($1, `0', `
', `m4wrap(`countdown('decr($1)`)')')')dnl
m4wrap(`countdown(`3')')dnl
text of the file
