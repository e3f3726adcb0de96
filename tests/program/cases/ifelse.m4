ifelse`'|ifelse(`comment')|ifelse(`a', `a', `same')|ifelse(`a', `b', `same')|
ifelse(`a', `b', `same', `other')|ifelse(`a', `a', `same', `other')|
ifelse(`a', `b', `1', `c', `c', `2')|ifelse(`a', `b', `1', `c', `d', `2')|ifelse(`a', `b', `1', `c', `d', `2', `3')|
ifelse(`a', `b')|
ifelse(`a', `b', `1', `2', `3')|ifelse(`a', `b', `1', `c', `d', `2', `3', `4')|
ifelse(, , `empty')|ifelse(` a', `a', `same', `blank')|
define(`x', `1')ifelse(x, `1', `expanded')|ifelse(`x', `1', `expanded', `as it stands')|
ifelse(`a', `a', `ifelse(`b', `c', `no', `nested')')|
