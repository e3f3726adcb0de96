divert(-1)
The base library: lists, for any project.

each(NAME, LIST, TEXT)   TEXT once for each item of LIST, which NAME stands for
count(LIST)              how many items it has

define(`each', `pushdef(`$1')_each(`$1', $2, `$3')popdef(`$1')')
define(`_each', `ifelse(`$2', `()', `', `define(`$1', first$2)$3`'_each(`$1', (shift$2), `$3')')')
define(`first', `$1')
define(`count', `items$1')
define(`items', `$#')
divert(0)dnl
