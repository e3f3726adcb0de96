name([x]) popdef([name])name popdef([name])name popdef([name])name
cut(a, b, c)|indir([look up], [cut], d, e)
backwards([p], [q], [r])
ifdef([cut], [kept], [lost])
