divert(-1)
# Greetings for small pages, in several languages.
#
# Freeze it once, and start every page from the frozen state:
#
#     m4 -F examples/greetings.m4f examples/greetings.m4
#     m4 -R examples/greetings.m4f page.m4
#
# A page says greet(Ada), or greet_in(fr, [greet(Ada)]), or greet_page(Hello, [greet(Ada)]).

# Greetings are full of apostrophes, so texts are quoted by brackets.
changequote([, ])

# The rest of a list is cut(..), since pages speak of a night shift too.
define([cut], defn([shift]))
undefine([shift])

# The language that is spoken now, as a stack: the newest definition counts.
define([greet_language], [en])
define([greet_speak], [pushdef([greet_language], [$1])])
define([greet_hush], [popdef([greet_language])])
define([greet_in], [greet_speak([$1])$2[]greet_hush[]])

# A phrase in the language that is spoken: greet_say(hello) is hello_de in German.
define([greet_say], [indir([$1_]greet_language)])

# The phrases. German, French, Icelandic and Japanese need bytes above 127.
define([hello_en], [Hello])
define([hello_au], [G'day])
define([hello_de], [Grüß Gott])
define([hello_fr], [Bonjour])
define([hello_is], [Góðan daginn])
define([hello_ja], [こんにちは])
define([bye_en], [Goodbye])
define([bye_au], [Hooroo])
define([bye_de], [Auf Wiedersehen])
define([bye_fr], [À tout à l'heure])
define([bye_is], [Bless])
define([bye_ja], [さようなら])
define([thanks_en], [Thank you])
define([thanks_au], [Ta])
define([thanks_de], [Vielen Dank])
define([thanks_fr], [Merci d'être venu])
define([thanks_is], [Takk fyrir])
define([thanks_ja], [ありがとう])

# What ends a greeting: the newest mark counts, and a page may go back to an older one by popdef.
define([greet_mark], [.])
pushdef([greet_mark], [!])
pushdef([greet_mark], [, and well met!])

# One guest, or all of a list.
define([greet], [greet_say([hello]), $1[]greet_mark[]])
define([greet_bye], [greet_say([bye]), $1.])
define([greet_thanks], [greet_say([thanks]), $1.])
define([greet_all], [ifelse([$#], [0], [], [$#], [1], [greet([$1])],
	[greet([$1])
greet_all(cut($@))])])

# A count of guests in words: greet_count(1), greet_count(3).
define([greet_count], [ifelse([$1], [0], [nobody], [$1], [1], [one guest], [$1 guests])])

# A heading with a rule of the same length below it, and a page with a note at its foot.
define([greet_rule], [ifelse(len([$1]), [0], [], [-greet_rule(substr([$1], [1]))])])
define([greet_heading], [$1
greet_rule([$1])
])
define([greet_page], [greet_heading([$1])
$2

# No comment here, but the foot of "$1": greet_mark is not expanded behind this sign.
])

# Texts with the quotes and comments of other programs.
define([shell_comment], [# $*])
define([shell_word], ['$1'])
define([m4_quoted], [`$1'])
define([as_it_is], [[$1] stays as it is, and $1 does not])

# A macro with no text, and one whose text is a newline.
define([greet_nothing], [])
define([greet_newline], [
])

divert(0)dnl
