width(`word')
width(`one, two')
tail(`word', 2)
tail(`word')
kind(`a')
kind(`b') errprint(`between
')width(`three, four, five')
divert(1)dnl
tail(`later')
divert(0)dnl
decr(`8', `9')undivert(1)
