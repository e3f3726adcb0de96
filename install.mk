# The rules of `make install` and `make uninstall`, in the sources and, as its Makefile, in the archive of `make dist`.

PREFIX = /usr/local
DESTDIR =

# What is installed under PREFIX beside the program.
SHARED := share/man/man1/m4r.1 share/bash-completion/completions/m4r share/zsh/site-functions/_m4r \
	share/fish/vendor_completions.d/m4r.fish

.PHONY: install uninstall

# `make` alone installs nothing.
.DEFAULT_GOAL := m4r

# The program, its man page and the completions of three shells, under PREFIX.
install: m4r
	install -d $(addprefix $(DESTDIR)$(PREFIX)/, bin $(dir $(SHARED)))
	install -m 755 m4r $(DESTDIR)$(PREFIX)/bin/m4r
	install -m 644 man/m4r.1 $(DESTDIR)$(PREFIX)/share/man/man1/m4r.1
	install -m 644 completions/m4r.bash $(DESTDIR)$(PREFIX)/share/bash-completion/completions/m4r
	install -m 644 completions/_m4r $(DESTDIR)$(PREFIX)/share/zsh/site-functions/_m4r
	install -m 644 completions/m4r.fish $(DESTDIR)$(PREFIX)/share/fish/vendor_completions.d/m4r.fish

# Removes what `make install` put there.
uninstall:
	rm -f $(addprefix $(DESTDIR)$(PREFIX)/, bin/m4r $(SHARED))
