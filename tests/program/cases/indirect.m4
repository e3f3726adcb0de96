define(`long name', `<$0|$1|$#>')indir(`long name', `x', `y')
indir(`indir', `builtin', `indir', `long name', `z')
define(`define_saved', defn(`define'))undefine(`define')define(`a', `b')
builtin(`define', `back', `again')back
indir(`define_saved', `define', defn(`define_saved'))define(`c', `d')c
builtin(`shift', `gone', `stays', `c')
indir(`nobody', `x')|builtin(`nobody', `x')|
pushdef(`define', `mine')indir(`define', `e', `f')e builtin(`define', `e', `f')e popdef(`define')
builtin(`builtin', `ifelse', `x', `x', `yes')
