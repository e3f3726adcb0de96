release(`1.1', `a Friday')
entry(`A state is frozen faster.')
thanks(`Ada', `Grace', `Emmy')dnl
