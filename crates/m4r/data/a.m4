define(`hi',`Hello $1.')dnl
