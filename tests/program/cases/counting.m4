define(`counter', `0')dnl
define(`next', `define(`counter', incr(counter))counter')dnl
next next next
incr(`-1') decr(`0') incr(` 41') decr(`-7')
define(`down', `ifelse($1, `0', `0', `$1 down(decr($1))')')dnl
down(`5')
