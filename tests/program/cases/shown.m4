define(`b', `2')define(`a', `1 $1')pushdef(`a', `top')define(`empty')dnl
dumpdef(`b', `a', `dnl', `nobody', `empty', `a')dnl
define(`d', defn(`dnl'))dumpdef(`d', `unknown', `b')dnl
changequote([, ])dumpdef([a])dnl
