divert(1)never issued
divert(0)dnl
m4wrap(`m4wrap(`never read
')saved m4exit(`256')never reached
')dnl
m4exitless(`2') text
