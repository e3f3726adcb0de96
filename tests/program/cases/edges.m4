len(`é') len() len(`(,)') len(`a', `b')
index(`éa', `a') index(`a', `é') index(`', `') index(`aab', `ab') index(`only')
index(`abc', `c', `d') builtin(`index')|builtin(`len')|
substr(`é!', `2') <substr(`abc', `3')> <substr(`', `0')> <substr(`abc', `2147483647')> substr(`only')
<substr(`abc', `-1', `2')> <substr(`abc', `1', `-1')> substr(`abc', `', `2') substr(`abc', `1', `99')
<substr(`abc', `x')> <substr(`abc', `1', `x')> substr(`abc', `0', `1', `d') builtin(`substr')|
translit(`only') translit(`abc', `', `x') translit(`abc', `a-c') <translit(`', `a', `b')> translit(`abc', `a-c', `x')
translit(`a-z', `-', `+') translit(`abc', `c-a', `1-3') translit(`a-b', `a-', `x_') translit(`aa', `aa', `12')
translit(`aéb', `é', `ab') translit(`abcd', `a-b-d', `1-4') translit(`a', `a', `b', `c') builtin(`translit')|
incr(`2147483647') decr(`-2147483648') incr(`+1') incr(`007') incr(` 	8') incr(`-1')
incr(`') decr() <incr(`x')> <incr(`1 ')> <decr(`1.5')> <decr(`- 1')> <incr(`--1')> incr(`1', `2') builtin(`decr')|
errprint(`a', `', `c')errprint(`
')errprint()errprint(len(`abc'), ``len'(`abc')')errprint(`
')builtin(`errprint')|
len index substr translit incr decr errprint m4wrap
define(`joins', `len(`$*')')joins(`a', `b') define(`joined', `len(`$@')')joined(`a', `b')
