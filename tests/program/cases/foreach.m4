define(`each', `pushdef(`$1')each_of($@)popdef(`$1')')dnl
define(`each_of', `ifelse(`$2', `()', `', `define(`$1', first$2)$3`'each_of(`$1', (rest$2), `$3')')')dnl
define(`first', ``$1'')define(`rest', `shift($@)')dnl
define(`item', `outside')dnl
each(`item', (`red', `green', `deep blue'), `<item>')
item
each(`row', (`1', `2'), `each(`column', (`a', `b'), `row`'column ')
')dnl
