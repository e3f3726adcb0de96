dnl A notice for the door of the house, in the macros of layout.m4.
dnl
<!DOCTYPE html>
<html lang="en">
<head>
<meta charset="utf-8">
TAG([title], [Spring tide])
</head>
<body>
HEADING([1], [The slip is under water])dnl
TEXT([On three days of this month the sea comes up to the door.NOTE([It has come into the hall twice, and
both clocks there stopped.]) The door is shut then, and GREETING(fr) is said from the window.])dnl
TABLE([dnl
HEAD([Day], [High water], [The door])dnl
ROW([the 13th], [11:50], [shut from ten])dnl
ROW([the 14th], [12:40], [shut all day])dnl
ROW([the 15th], [13:25], [shut until four])dnl
])dnl
HEADING([2], [What to bring])dnl
LIST([boots], [a lamp, if you come behind seven], [EITHER(WITH_FEES, [the fee], [nothing else])])dnl
QUOTED([Who waits an hour has waited for the moon.], [on a beam in the attic])dnl
FOOT
</body>
</html>
