release(`1.0', `a Monday')
entry(`Macros are expanded.')
entry(`A state is frozen.')
thanks(`Ada')dnl
