dnl Three pages about a house of tide clocks, in the macros of layout.m4.
dnl
define([SITE_NAME], [The House of Tide Clocks])dnl
define([SITE_HOST], [tideclocks.example])dnl
define([FOUNDED], [1871])dnl
define([ROOMS], [eleven])dnl
define([KEEPER], [Ida Brandvold])dnl
<!DOCTYPE html>
<html lang="en">
<head>
<meta charset="utf-8">
TAG([title], [SITE_NAME])
</head>
<body>
<!-- SITE_NAME and PAGE(clocks) stay as they are here: a name in a comment is no call. -->
TEXT([GREETING(en), GREETING(fr), GREETING(is)!])dnl
PAGE([clocks], [The clocks of SITE_NAME], [dnl
TEXT([A tide clock has one hand. It goes round once in twelve hours and twenty-five minutes,
from high water to high water, and it is wrong by a little every day.NOTE([The moon is never
quite on time, and the wind pushes the water, so a harbour still needs its tables.])])dnl
TEXT([The house was founded in FOUNDED, in ROOMS rooms above the old ferry slip. Its keeper,
KEEPER, winds STRONG([each clock, each morning]), and writes down what the harbour says.])dnl
HEADING([2], [Four that go])dnl
TABLE([dnl
HEAD([Clock], [Made], [Hands], [Room])dnl
ROW([The Long Ebb], [1874], [one], [Stairs])dnl
ROW([Lindqvist's Double], [1902], [two, of brass], [Second])dnl
ROW([The Pilot], [1911], [one], [Pilots' room])dnl
ROW([Nameless], [about 1930], [none left], [Attic])dnl
])dnl
HEADING([2], [How one is read])dnl
STEPS([Find the hand.], [Find LINK([#visit], [the slip]), and look at the water.],
  [If both say TERM([high]), trust the clock.], [If they differ, trust the water.])dnl
QUOTED([A clock that is right twice a day is stopped. A clock that is right twice a tide is ours.],
  [KEEPER])dnl
TEXT([The Nameless has no hand, so it is never wrong.NOTE([It was found in a net, in 1953, between
two islands that both say it is theirs.])])dnl
])dnl
PAGE([visit], [Visit], [dnl
TEXT([You find us where the road ends.WHEN(WITH_MAP, [ LINK([map.png], [The map]) shows the rest.])
EITHER(WITH_FEES, [There is a small fee.], [There is no fee.])])dnl
WHEN(WITH_FEES, [TABLE([dnl
HEAD([Who], [Fee])dnl
ROW([Grown], [80])dnl
ROW([Not yet], [0])dnl
ROW([Came by boat], [40, and a line in the book])dnl
])])dnl
TEXT([Opening hours follow the water:])dnl
LIST([from an hour before high water], [until an hour behind it], [never at night])dnl
TEXT([Write to MAIL([keeper]), or to MAIL([slip]) if you come by boat.NOTE([Letters are answered at low water,
when nobody can land.])])dnl
])dnl
dnl The next page shows texts of the workshop's own, which are full of brackets.
PAGE([workshop], [Workshop], [dnl
TEXT([Every clock's drawing has a line like this one, in the notation of the second keeper:])dnl
changequote({, })dnl
define({DRAWING}, {<p><code>$1</code></p>})dnl
DRAWING({[hand: 1] [teeth: 57, 59] [fall: 2 fathoms]})
changequote([, ])dnl
TEXT([A bracket holds one part. What is not in brackets isn't built.NOTE([So the keepers say; there
are two knobs in the attic, not in any drawing.])])dnl
LIST([a hand, with its length], [a wheel, with its teeth], [a weight, with how far it may fall],
  [a chain], [what turns it, if no weight does])dnl
define([FOUNDED], [1899])dnl
TEXT([The workshop itself is younger than the house, from FOUNDED.undefine([FOUNDED]) (FOUNDED is the name
that the texts of this page have for the year, and it is undefined by now.)])dnl
])dnl
changecom[]dnl
<!-- Without comments a name is a call here too: SITE_NAME. -->
changecom([<!--], [-->])dnl
undefine([SITE_HOST])dnl
TEXT([SITE_NAME DASH SITE_HOST])dnl
</body>
</html>
