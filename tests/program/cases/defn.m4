define(`text', `one, `two' $1')dnl
defn(`text')
define(`copy', defn(`text'))copy(`x')
define(`cut', defn(`shift'))cut(`a', `b', `c')
define(`joined', defn(`text', `text'))joined(`y')
defn(`unknown')|
define(`mixed', defn(`text', `dnl'))mixed(`z')
define(`kept', `a' defn(`cut') `b')kept
changequote([, ])define([other], [quoted])defn([other])
