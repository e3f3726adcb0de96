dnl Walks the definitions of a name, the newest first, and restores them.
define(`walk', `ifdef(`$1', `[defn(`$1')]pushdef(`kept', defn(`$1'))popdef(`$1')walk(`$1')pushdef(`$1', defn(`kept'))popdef(`kept')', `')')dnl
define(`p', `first')pushdef(`p', `second')pushdef(`p', `third $1')dnl
walk(`p')
p(`x')
popdef(`p')p popdef(`p')p popdef(`p')p popdef(`p')p
pushdef(`q', `1')undefine(`q')q
define(`r', `old')pushdef(`r', `middle')define(`r', `new')r popdef(`r')r
pushdef(`a', `1')pushdef(`b', `2')popdef(`a', `nothing', `b')a b
