ifdef(`x', `yes', `no')|ifdef(`x', `yes')|
define(`x')ifdef(`x', `yes', `no')|ifdef(`x', `yes')|
ifdef(`define', `a builtin')|ifdef(`x')|ifdef(`x', `yes', `no', `more')|
ifdef(`no such name', `yes', `x is no')|ifdef|
shift|shift(`one')|shift(`one', `two', `three')|shift(`one', , `three')|
define(`y', `expanded')shift(`a', y, `y')|
changequote([, ])shift([a], [y], [[y]])|
changequote(, )shift(a, b, c)
