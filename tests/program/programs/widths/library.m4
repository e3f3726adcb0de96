divert(-1)
# Widths of words, by a library that is used wrongly: what its builtins say of that is in `messages`.

# width(TEXT): the text and how long it is. It does not quote the text, so that a comma in it makes one argument more.
define(`width', `$1: len($1)')

# tail(TEXT, PLACE): the text from this place on. A page that forgets the place has the whole text.
define(`tail', `ifelse(`$2', `', `substr(`$1')', `substr(`$1', `$2')')')

# kind(TEXT): a list of cases that ends with one argument more than a case has
define(`kind', `ifelse(`$1', `a', `letter', `other', `lost')')
divert(0)dnl
