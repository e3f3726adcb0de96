divert(-1)
changequote({, })
changecom
# A small format of documents, written as HTML. A page says
#
#     Title(TEXT)                 the title, once, at the beginning
#     Contents                    the table of contents is to be here
#     Section(TEXT), Subsection(TEXT)
#                                 headings, with their numbers, and a place that can be linked to
#     Paragraph(TEXT)             a paragraph
#     List(ITEM, ...), Numbered(ITEM, ...)
#     Note(TEXT)                  a note at the foot of the page, which a number in the text leads to
#     See(TEXT)                   a link to the section of that heading
#     Code(TEXT)                  text that is shown as it is
#     End                         the notes, and the end of the document
#
# Each of them has a capital, so that no word of a document is a call. The table of contents is known only
# after the last heading: the body goes to a diversion, and the table to one that is brought back before it.

define({CONTENTS}, 1)
define({BODY}, 2)
define({NOTES}, 3)

# escaped(TEXT): with the three characters of HTML written out, one character at a time from the front
define({escaped}, {ifelse({$1}, {}, {}, {escape_first(substr({$1}, 0, 1))escaped(substr({$1}, 1))})})
define({escape_first}, {ifelse({$1}, {<}, {{&lt;}}, {$1}, {>}, {{&gt;}}, {$1}, {&}, {{&amp;}}, {{$1}})})

# anchor(TEXT): a name for a place: small letters, with dashes for spaces, and without other signs
define({anchor},
{translit(translit({{$1}}, {ABCDEFGHIJKLMNOPQRSTUVWXYZ }, {abcdefghijklmnopqrstuvwxyz-}), {.;:!?()"&<>/})})

# for_each(MACRO, ITEM, ...): calls the macro with each item
define({for_each},
{ifelse({$#}, 1, {},
        {$#}, 2, {$1({$2})},
        {$1({$2})for_each({$1}, shift(shift($@)))})})

# The counters of sections, of subsections within the section, and of notes.
define({sections}, 0)
define({subsections}, 0)
define({notes}, 0)
define({count_up}, {define({$1}, incr($1))})

# in_contents(LEVEL, NUMBER, TEXT): a line of the table of contents
define({in_contents},
{divert(CONTENTS){<li class="level$1"><a href="#}anchor({$3}){">$2 }escaped({$3}){</a></li>}
divert(BODY)})

# heading(LEVEL, NUMBER, TEXT): a heading, whose place is remembered by its text
define({heading},
{define({number of $3}, {$2})in_contents({$1}, {$2}, {$3})dnl
{<h$1 id="}anchor({$3}){">$2 }escaped({$3}){</h$1>}})

define({Title},
{{<!DOCTYPE html>
<title>}escaped({$1}){</title>
<h1>}escaped({$1}){</h1>}
divert(BODY)})

# The place of the table of contents is where the diversions are brought back, after the title.
define({Contents}, {define({with_contents})})

define({Section}, {count_up({sections})define({subsections}, 0)heading(2, sections, {$1})})
define({Subsection}, {count_up({subsections})heading(3, sections.subsections, {$1})})

define({Paragraph}, {{<p>}$1{</p>}})

define({item}, {{<li>}$1{</li>}
})
define({List}, {{<ul>}
for_each({item}, $@){</ul>}})
define({Numbered}, {{<ol>}
for_each({item}, $@){</ol>}})

define({Code}, {{<code>}escaped({$1}){</code>}})

define({Note},
{count_up({notes}){<a href="#note}notes{"><sup>}notes{</sup></a>}divert(NOTES)dnl
{<p id="note}notes{">}notes{. }$1{</p>}
divert(BODY)})

# A link says the number of a section only if that section came before it.
define({See},
{{<a href="#}anchor({$1}){">}ifdef({number of $1}, {indir({number of $1}){ }})escaped({$1}){</a>}})

# A document without any section ends the run with an error.
define({End},
{ifelse(sections, 0, {errprint(__file__:__line__: {a document needs a section
})m4exit(1)})dnl
divert(0)ifdef({with_contents}, {{<ul class="contents">}
undivert(CONTENTS){</ul>}
})undivert(BODY)ifelse(notes, 0, {}, {{<hr>}
undivert(NOTES)})m4wrap({{<!-- }sections{ sections, }notes{ notes -->}
})})
divert(0)dnl
