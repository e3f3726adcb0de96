changequote([, ])dnl
changecom([<!--], [-->])dnl
dnl The layout of a small site, as macros. It prints nothing, so it can be frozen once:
dnl
dnl     m4 -F layout.m4f layout.m4
dnl     m4 -R layout.m4f pages.m4
dnl
dnl and a run over both files, m4 layout.m4 pages.m4, writes the same. It needs define, undefine,
dnl dnl, changequote and changecom, and no other builtin.
dnl
dnl Texts are quoted by brackets, since pages are full of apostrophes. Comments are those of HTML:
dnl they are copied, and a name in them is no call.
dnl
dnl ---- Elements -------------------------------------------------------------------------------
dnl
dnl TAG(name, text), and TAG_WITH(name, attributes, text).
define([TAG], [<$1>$2</$1>])dnl
define([TAG_WITH], [<$1$2>$3</$1>])dnl
define([ATTRIBUTE], [ $1="$2"])dnl
define([CLASS], [ATTRIBUTE([class], [$*])])dnl
dnl
dnl Words within a line.
define([STRONG], [TAG([strong], [$*])])dnl
define([TERM], [TAG([em], [$*])])dnl
define([LINK], [TAG_WITH([a], ATTRIBUTE([href], [$1]), [$2])])dnl
define([MAIL], [LINK([mailto:$1@SITE_HOST], [$1 at SITE_HOST])])dnl
define([DASH], [&#8212;])dnl
define([APART], [&nbsp;])dnl
dnl
dnl Blocks.
define([TEXT], [TAG([p], [$*])
])dnl
define([HEADING], [TAG([h$1], [$2])
])dnl
define([QUOTED], [TAG([blockquote], [
TEXT([$1])TEXT([DASH[]APART[]$2])])
])dnl
dnl
dnl ---- Lists ----------------------------------------------------------------------------------
dnl
dnl LIST(a, b, ..) of at most six items: the count of the arguments picks the macro that goes on.
define([ITEM], [  TAG([li], [$1])
])dnl
define([ITEMS_0], [])dnl
define([ITEMS_1], [ITEM([$1])])dnl
define([ITEMS_2], [ITEMS_1([$1])ITEM([$2])])dnl
define([ITEMS_3], [ITEMS_2([$1], [$2])ITEM([$3])])dnl
define([ITEMS_4], [ITEMS_3([$1], [$2], [$3])ITEM([$4])])dnl
define([ITEMS_5], [ITEMS_4([$1], [$2], [$3], [$4])ITEM([$5])])dnl
define([ITEMS_6], [ITEMS_5([$1], [$2], [$3], [$4], [$5])ITEM([$6])])dnl
define([LIST], [TAG([ul], [
ITEMS_$#($@)])
])dnl
define([STEPS], [TAG([ol], [
ITEMS_$#($@)])
])dnl
dnl
dnl ---- Tables ---------------------------------------------------------------------------------
dnl
dnl TABLE(rows), where a row is HEAD(a, b, ..) or ROW(a, b, ..) of at most four cells.
define([CELLS_1], [TAG([$1], [$2])])dnl
define([CELLS_2], [CELLS_1([$1], [$2])TAG([$1], [$3])])dnl
define([CELLS_3], [CELLS_2([$1], [$2], [$3])TAG([$1], [$4])])dnl
define([CELLS_4], [CELLS_3([$1], [$2], [$3], [$4])TAG([$1], [$5])])dnl
define([HEAD], [  TAG([tr], [CELLS_$#([th], $@)])
])dnl
define([ROW], [  TAG([tr], [CELLS_$#([td], $@)])
])dnl
define([TABLE], [TAG([table], [
$1])
])dnl
dnl
dnl ---- Choices --------------------------------------------------------------------------------
dnl
dnl A flag is a macro whose text is yes or no: WHEN(FLAG, text) and EITHER(FLAG, text, other).
define([EITHER_yes], [$1])dnl
define([EITHER_no], [$2])dnl
define([EITHER], [EITHER_$1([$2], [$3])])dnl
define([WHEN], [EITHER([$1], [$2], [])])dnl
define([WITH_MAP], [no])dnl
define([WITH_FEES], [yes])dnl
dnl
dnl The languages of a greeting: GREETING(en), GREETING(fr), GREETING(is).
define([GREETING_en], [Welcome])dnl
define([GREETING_fr], [Bienvenue])dnl
define([GREETING_is], [Velkomin])dnl
define([GREETING], [GREETING_$1])dnl
dnl
dnl ---- Numbers --------------------------------------------------------------------------------
dnl
dnl COUNTER starts at 0, and STEP_COUNTER makes it one more, up to nine.
define([AFTER_0], [1])dnl
define([AFTER_1], [2])dnl
define([AFTER_2], [3])dnl
define([AFTER_3], [4])dnl
define([AFTER_4], [5])dnl
define([AFTER_5], [6])dnl
define([AFTER_6], [7])dnl
define([AFTER_7], [8])dnl
define([AFTER_8], [9])dnl
define([COUNTER], [0])dnl
define([STEP_COUNTER], [define([COUNTER], [AFTER_]COUNTER)])dnl
dnl
dnl ---- Notes ----------------------------------------------------------------------------------
dnl
dnl NOTE(text) leaves a number, and keeps the text under it for the foot of the page.
define([NOTE], [STEP_COUNTER[]define([NOTE_]COUNTER, [$*])TAG([sup], LINK([#note]COUNTER, COUNTER))])dnl
define([NOTE_AT], [TAG_WITH([li], ATTRIBUTE([id], [note$1]), [NOTE_$1])
])dnl
define([NOTES_0], [])dnl
define([NOTES_1], [NOTE_AT([1])])dnl
define([NOTES_2], [NOTES_1[]NOTE_AT([2])])dnl
define([NOTES_3], [NOTES_2[]NOTE_AT([3])])dnl
define([NOTES_4], [NOTES_3[]NOTE_AT([4])])dnl
define([NOTES_HERE], [NOTES_$1])dnl
define([FOOT], [TAG_WITH([ol], CLASS([notes]), [
NOTES_HERE(COUNTER)])
FORGET_NOTES])dnl
define([FORGET_NOTES], [undefine([NOTE_1], [NOTE_2], [NOTE_3], [NOTE_4])define([COUNTER], [0])dnl
])dnl
dnl
dnl ---- Pages ----------------------------------------------------------------------------------
dnl
dnl PAGE(name, title, text) is one page; its menu marks the page itself.
define([MENU_ITEM], [LINK([$1.html], [$2])])dnl
define([MENU], [TAG([nav], [
LIST(MENU_FOR([$1], [clocks], [Clocks]), MENU_FOR([$1], [visit], [Visit]), MENU_FOR([$1], [workshop], [Workshop]))])
])dnl
define([MENU_FOR], [MENU_$1_$2([$2], [$3])])dnl
define([MENU_clocks_clocks], [STRONG([$2])])dnl
define([MENU_visit_visit], [STRONG([$2])])dnl
define([MENU_workshop_workshop], [STRONG([$2])])dnl
define([MENU_clocks_visit], [MENU_ITEM($@)])dnl
define([MENU_clocks_workshop], [MENU_ITEM($@)])dnl
define([MENU_visit_clocks], [MENU_ITEM($@)])dnl
define([MENU_visit_workshop], [MENU_ITEM($@)])dnl
define([MENU_workshop_clocks], [MENU_ITEM($@)])dnl
define([MENU_workshop_visit], [MENU_ITEM($@)])dnl
define([PAGE], [TAG_WITH([article], ATTRIBUTE([id], [$1]), [
HEADING([1], [$2])MENU([$1])$3FOOT])
])dnl
