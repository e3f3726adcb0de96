dnl A counter kept by text: the digits follow one another, and a 9 carries.
define(`after', `ifelse($1, 0, 1, $1, 1, 2, $1, 2, 3, $1, 3, 4, $1, 4, 5, $1, 5, 6, $1, 6, 7, $1, 7, 8, $1, 8, 9, 0)')dnl
define(`carry', `ifelse($1, 9, `after($2)', $2)')dnl
define(`loop', `ifelse(`$1$2', `$3', `$1$2', `$1$2 loop(carry($2, $1), after($2), $3)')')dnl
loop(0, 7, 23)
define(`for', `pushdef(`$1', `$2')for_at($@)popdef(`$1')')dnl
define(`for_at', `$4`'ifelse($1, `$3', `', `define(`$1', after($1))for_at($@)')')dnl
for(`i', 3, 7, `[i]')
ifdef(`i', `left', `gone')
