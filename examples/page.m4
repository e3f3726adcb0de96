greet(Ada)
greet_in(fr, [greet(Ada)])
greet_in(au, [greet_all(Bea, Cyd, Dan)])
greet_bye(Ada) greet_thanks(Bea)
greet_count(1) and greet_count(3)
greet_page(Hello, [greet(Ada)])dnl
shell_comment(a, b)
shell_word(x) m4_quoted(y) as_it_is(z) cut(1,2,3) shift(1)
greet_in(ja, [greet_thanks(Ada)])greet_newline[]end
popdef([greet_mark])greet(Ada) popdef([greet_mark])greet(Ada)
