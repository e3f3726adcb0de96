divert(-1)
changequote([, ])
changecom
# The configuration of a server for several hosts, from declarations. A page says
#
#     Setting(NAME, DEFAULT)      a setting that every host has, with the value it has by default
#     Host(NAME, ADDRESS, NAME = VALUE, ...)
#                                 a host, with the settings in which it differs
#     Alias(NAME, HOST)           another name of a host that was declared
#     Group(NAME, HOST, ...)      hosts that share the load under one name
#     Note(TEXT)                  a line of comment
#     Summary                     counts what was declared, after the rest
#
# in any order. Macros that a page calls have a capital, so that no word of the configuration is a call.
# The parts are collected in diversions, and come out in the order of these numbers as the run ends.

define([HOSTS], 1)
define([ALIASES], 2)
define([GROUPS], 3)
define([NOTES], 4)

# into(DIVERSION, TEXT): writes the text there, and comes back to where it was
define([into], [pushdef([coming_from], divnum)divert($1)$2[]divert(coming_from)popdef([coming_from])])

# for_each(MACRO, ITEM, ...): calls the macro with each item; an empty list has one empty item
define([for_each],
[ifelse([$#:$2], [2:], [],
        [$#], 2, [$1([$2])],
        [$1([$2])for_each([$1], shift(shift($@)))])])

# add_one(KIND): one more of this kind; number_of(KIND): how many there are
define([add_one], [define([count_of_$1], incr(number_of([$1])))])
define([number_of], [ifdef([count_of_$1], [count_of_$1], 0)])

# report(TEXT): reports a mistake of the page with its place, and goes on; the summary sets the status
define([report], [errprint(__file__:__line__: [$1
])add_one([mistake])])

# pad(TEXT): the text, and spaces up to the sixteenth column; after a longer text there is one
define([SPACES], [                ])
define([pad], [[$1]ifelse(substr([$1], 15), [], [substr(SPACES, len([$1]))], [ ])])

# trim(TEXT): without the spaces at both of its ends
define([trim], [trim_end(trim_start([$1]))])
define([trim_start], [ifelse(index([$1], [ ]), 0, [trim_start(substr([$1], 1))], [[$1]])])
define([trim_end],
[ifelse(substr([$1], decr(len([$1]))), [ ], [trim_end(substr([$1], 0, decr(len([$1]))))], [[$1]])])

# A setting is a stack of values: its default is below, and that of the host being written is above.
define([Setting],
[ifdef([value_of_$1],
       [report([the setting $1 has a default already])],
       [define([value_of_$1], [$2])add_one([setting])define([all_settings],
           ifdef([all_settings], [defn([all_settings])[, ]])[[$1]])])])

# differ(NAME = VALUE): the host being written has another value
define([differ], [ifelse(index([$1], =), -1,
    [report([$1 is given no value])],
    [differ_by(trim(substr([$1], 0, index([$1], =))), trim(substr([$1], incr(index([$1], =)))))])])
define([differ_by], [ifdef([value_of_$1],
    [pushdef([value_of_$1], [$2])pushdef([changed], [$1])add_one([override])],
    [report([there is no setting $1])])])

# restore: takes back each value of the host that was written, the last one first
define([restore], [ifdef([changed],
    [popdef([value_of_]changed)popdef([changed])restore[]])])

define([write_setting], [    pad([$1])indir([value_of_$1]);
])

define([Host],
[ifdef([address_of_$1],
       [report([the host $1 is declared twice])],
       [define([address_of_$1], [$2])add_one([host])for_each([differ], shift(shift($@)))into(HOSTS,
[host $1 {
    pad([address])$2;
for_each([write_setting], all_settings)}
])restore[]])])

define([Alias],
[ifdef([address_of_$2],
       [add_one([alias])into(ALIASES, [alias pad([$1])$2
])],
       [report([the alias $1 is of $2, which is no host])])])

define([write_member],
[ifdef([address_of_$1],
       [    pad([$1])indir([address_of_$1]);
],
       [report([$1 is in a group, and is no host])])])
define([Group], [add_one([group])into(GROUPS, [group $1 {
for_each([write_member], shift($@))}
])])

define([Note], [into(NOTES, [# $1
])])

# The summary is expanded after the last line of the page, so that it counts all of it.
define([Summary], [m4wrap([write_summary[]])])
define([write_summary],
[undivert[]dnl
# number_of([host]) hosts, number_of([setting]) settings, number_of([override]) of them changed, dnl
number_of([alias]) aliases, number_of([group]) groups
ifelse(number_of([mistake]), 0, [], [# number_of([mistake]) mistakes
m4exit(2)])])
divert(0)dnl
