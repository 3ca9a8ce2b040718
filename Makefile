# Installs what ./jx builds: the program, its manual page and bash's completions. There is nothing else to make here.
PREFIX ?= /usr/local

install:
	scripts/install '$(DESTDIR)$(PREFIX)'

.PHONY: install
