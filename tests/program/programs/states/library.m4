divert(-1)
changequote([, ])
# A machine of states, written as a C function. A page says
#
#     machine(NAME)
#     at(STATE, ACTION)           a state, and a statement that runs as it is entered
#     on(EVENT, STATE)            from the state above, this event leads to that state
#     end_machine
#
# and each state and each event gets a number in the order in which it is met first. Names of C are
# quoted twice where they are written, so that no macro of a page can change them.

# each(MACRO, ITEM, ...): calls the macro with each item
define([each],
[ifelse([$#], 1, [],
        [$#], 2, [$1([$2])],
        [$1([$2])each([$1], shift(shift($@)))])])

# append(LIST, ITEM): adds an item to the list that this macro holds; each item stays quoted
define([append], [define([$1], ifdef([$1], [defn([$1])[, ]])[[$2]])])

# contains(LIST, YES, NO): whether the macro holds a list at all
define([contains], [ifelse(defn([$1]), [], [$3], [$2])])

# upper(TEXT): the text in capitals, as C writes its constants
define([upper], [translit([[$1]], [abcdefghijklmnopqrstuvwxyz], [ABCDEFGHIJKLMNOPQRSTUVWXYZ])])

# refuse(TEXT): reports where the page is wrong, and ends the run
define([refuse], [errprint(__file__:__line__: [$1
])m4exit(1)])

# number(KIND, NAME): gives the name the next number of its kind, unless it has one
define([number],
[ifdef([$1_number_$2], [],
[define([$1_number_$2], $1_count)define([$1_count], incr($1_count))append([$1_list], [$2])])])

define([machine],
[define([machine_name], [$1])define([at_count], 0)define([on_count], 0)define([move_count], 0)])

define([at],
[ifdef([at_number_$1], [refuse([state `$1' is declared twice])])dnl
number([at], [$1])define([here], [$1])define([action_$1], [$2])])

# A target may be declared later, so it is noted here with its place and looked up at the end.
define([on],
[ifdef([here], [], [refuse([event `$1' comes before any state])])dnl
ifdef([target_]here[_$1], [refuse([state `]here[' has two answers to `$1'])])dnl
number([on], [$1])define([target_]here[_$1], [$2])dnl
append([events_of_]here, [$1])append([targets], [$2])dnl
define([move_count], incr(move_count))])

# check_target(STATE): a target has to be a state
define([check_target], [ifdef([at_number_$1], [], [refuse([there is no state `$1'])])])

# The lines of the enumerations, of the switches and of the table. A switch over events is written
# once for each state, from the list of the events that the state answers.
define([state_line], [    [STATE_]upper([$1]) = at_number_$1,
])
define([event_line], [    [EVENT_]upper([$1]) = on_number_$1,
])
define([answer],
[        [case EVENT_]upper([$1])[: return STATE_]upper(indir([target_]here[_$1]));
])
define([case_of],
[define([here], [$1])dnl
    [case STATE_]upper([$1]):
contains([events_of_$1],
[        [switch (event) {]
each([answer], indir([events_of_$1]))dnl
        [default: return current;]
        }
],
[        [return current;]
])])
define([entry_of],
[contains([action_$1],
[    [case STATE_]upper([$1]): defn([action_$1])[; break;]
])])

define([end_machine],
[each([check_target], targets)dnl
[/* ]machine_name: at_count [states, ]on_count [events, ]move_count [moves] */
[enum state {]
each([state_line], at_list)};
[enum event {]
each([event_line], on_list)};

[enum state ]machine_name[_next(enum state current, enum event event)]
{
    [switch (current) {]
each([case_of], at_list)dnl
    }
    [return current;]
}

[void ]machine_name[_enter(enum state current)]
{
    [switch (current) {]
each([entry_of], at_list)dnl
    [default: break;]
    }
}
])
divert(0)dnl
