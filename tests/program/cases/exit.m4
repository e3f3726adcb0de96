divert(1)never issued
divert(0)dnl
m4wrap(`never read
')dnl
define(`check', `ifelse(len(`$1'), `$2', `$1: right', `errprint(`check: `$1' has 'len(`$1')` bytes, not $2
')m4exit(`3')')')dnl
check(`abc', `3')
check(`abcd', `3')
never reached
