define(`backwards', `ifelse($#, 0, `', $#, 1, ``$1'', `backwards(shift($@)), `$1'')')dnl
backwards
backwards(`only')
backwards(`one', `two', `three', `four')
define(`two', `expanded')backwards(`one', `two')
