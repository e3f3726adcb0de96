define(`word', `abcabc')dnl
len(word) len() len(`a b')
index(word, `ca') index(word, `d') index(word, `') index(`', `a')
substr(word, `2') substr(word, `1', `3') <substr(word, `6')> <substr(word, `-1')> <substr(word, `1', `0')>
substr(word, ` 2', `99')
translit(`Good Dog', `a-z', `A-Z') translit(`abcba', `a-c', `C-A') translit(`hello', `l')
translit(`a-b', `-a', `_A') translit(`abc', `aab', `xyz')
define(`upcase', `translit($*, `a-z', `A-Z')')dnl
define(`capital', `upcase(substr(`$1', `0', `1'))`'substr(`$1', `1')')dnl
capital(`macro') capital(`processor')
