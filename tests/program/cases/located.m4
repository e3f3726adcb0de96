errprint(`first', `line')errprint(`
')dnl
line __line__
line __line__ __line__
define(`where', `__line__')dnl
where
`two
lines' __line__
