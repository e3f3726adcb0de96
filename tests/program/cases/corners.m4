eval(1<1)eval(2>2)eval(1>=2)eval(2<=1)eval(2>=2)eval(2<=2) eval(-1<-1)eval(-1>-1)
define(`f', `$$|$01|$001|$')f(a)
define(`g', `<$#:$1>')g(ifelse(a, b, 1, c, d, 2, e, f, 3, x, y))
dnl(x) dropped
ifelse(a, b, 1, c, d, 2, e, f, 3, x)
define(`p q', `text')changequote(, )dnl
dumpdef(p q)
