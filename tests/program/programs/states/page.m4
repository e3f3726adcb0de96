machine([door])dnl
at([closed], [lamp(0), log("closed, not locked")])dnl
on([open], [opened])dnl
on([lock], [locked])dnl
at([opened], [lamp(1)])dnl
on([shut], [closed])dnl
on([force], [broken])dnl
at([locked])dnl
on([unlock], [closed])dnl
on([force], [broken])dnl
at([broken], [each(alarm, 3)])dnl
dnl The names below are macros now. None of them may reach the names that the library writes.
define([current], [WRONG])define([event], [WRONG])define([STATE_], [WRONG])dnl
end_machine[]dnl
