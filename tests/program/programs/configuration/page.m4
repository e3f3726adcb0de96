# Written from page.m4; changes belong there.
Summary[]dnl
Setting([port], [80])dnl
Setting([workers], [4])dnl
Setting([root], [/srv/www])dnl
Setting([log], [value_of_root/log])dnl
Note([The hosts of the front come first, then those of the store.])dnl
Host([front-one], [10.0.0.1], [workers = 16])dnl
Host([front-two], [10.0.0.2], [workers = 16], [port = 8080])dnl
Group([front], [front-one], [front-two])dnl
Host([store], [10.0.1.1], [root = /srv/store], [port=5432], [quota = 20 GB])dnl
Alias([www], [front-one])dnl
Alias([backup-of-everything], [store])dnl
Alias([mail], [post])dnl
Host([a-host-of-a-long-name], [10.0.2.1])dnl
Host([store], [10.0.1.2])dnl
Group([back], [store], [a-host-of-a-long-name], [spare])dnl
Note([[A comma, as here, stays in its note.]])dnl
