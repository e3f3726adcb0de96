# Rules for make. `include m4r.mk`, and name what a library is frozen on, if it has a base:
#
#     project.m4f: base.m4f
#     project.m4f: private BASE = -R base.m4f
#
# FILE.m4f is FILE.m4 frozen. It is made under another name and then moved, so that no page starts from half of it.
M4R ?= m4r

%.m4f: %.m4
	$(M4R) $(BASE) -F $@.new $< && mv $@.new $@

.DELETE_ON_ERROR:
