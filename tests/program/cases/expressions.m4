eval(`1 + 2 * 3') eval(`(1 + 2) * 3') eval(`-5 / 2') eval(`-5 % 2') eval(`7 - 2 - 1') eval(`100 / 10 / 5')
eval(`1 << 4 + 1') eval(`-16 >> 2') eval(`1 << 31') eval(`-1 >> 31') eval(`2147483647 + 1') eval(`-2147483648 - 1')
eval(`1 < 2 == 1') eval(`3 > 2 > 1') eval(`2 >= 2') eval(`1 <= 0') eval(`5 != 5') eval(`6 & 3 ^ 5 | 8')
eval(`1 || 0 && 0') eval(`0 || 0') eval(`2 && 3') eval(`!5') eval(`!0') eval(`~0') eval(`- - 3') eval(`+ -3')
eval(`0x1F') eval(`0Xff') eval(`017') eval(`0b101') eval(`0r16:beef') eval(`0r36:Zz') eval(`4294967295') eval(`0')
eval(`255', `16') eval(`255', `2') eval(`-255', `16', `6') eval(`5', `10', `3') eval(`-2147483648', `36') eval(`0', `2', `4')
[eval(`1 / 0')] [eval(`1 % 0')] [eval(`(1')] [eval(`1 +')] [eval(`1 2')] [eval(`08')] [eval(`x')] [eval(`1', `37')]
eval(`') eval(`1', `') eval(`1', `10', `') [eval(`1', `x')] [eval(`1', `10', `-1')] eval(`1', `10', `2', `3')
define(`fib', `ifelse(eval($1 < 2), `1', `$1', `eval(fib(eval($1 - 1)) + fib(eval($1 - 2)))')')dnl
define(`power', `ifelse(`$2', `0', `1', `eval($1 * power(`$1', decr(`$2')))')')dnl
define(`prime', `prime_from(`$1', `2')')dnl
define(`prime_from', `ifelse(eval($2 * $2 > $1), `1', `yes', eval($1 % $2), `0', `no', `prime_from(`$1', incr(`$2'))')')dnl
fib(`10') fib(`15') power(`3', `5') power(`2', `30') prime(`97') prime(`91') prime(`2')
define(`n', `7')eval(n * n) eval(`n * n') eval((n) + 1, n)
