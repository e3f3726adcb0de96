changequote([, ])dnl
define([name], [oldest])pushdef([name], [middle])pushdef([name], [newest $1])dnl
define([cut], defn([shift]))define([look up], defn([indir]))dnl
define([backwards], [ifelse($#, 1, [[$1]], [backwards(shift($@)), [$1]])])dnl
