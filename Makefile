# Builds the program that dist/ ships, with the machine's C compiler and xz alone; nothing is proved on the way.
#   make               out/argue; make -B LDFLAGS=-static makes one that needs no C library where it runs
#   make install       into PREFIX, and below DESTDIR where that is given; make uninstall
#   make check-dist    where the Rattle kit is: proves and builds the sources, and compares with what is shipped
#   make test          tries the script argue, dist/ and the installation
#   make clean         removes out/

PREFIX = /usr/local
DESTDIR =
CC = cc
CFLAGS = -O2
LDFLAGS =

BIN = $(DESTDIR)$(PREFIX)/bin
LIBEXEC = $(DESTDIR)$(PREFIX)/libexec/burgaouez
SHARE = $(DESTDIR)$(PREFIX)/share
MAN = $(SHARE)/man/man1
DOC = $(SHARE)/doc/burgaouez
BASH = $(SHARE)/bash-completion/completions
ZSH = $(SHARE)/zsh/site-functions

all: out/argue

# (dist/build says so where dist/ ships no program yet)
out/argue: $(wildcard dist/argue.o.xz dist/made) dist/edge.c
	@mkdir -p out
	CC='$(CC)' CFLAGS='$(CFLAGS)' LDFLAGS='$(LDFLAGS)' dist/build out/argue

install: out/argue
	mkdir -p '$(BIN)' '$(LIBEXEC)' '$(MAN)' '$(DOC)' '$(BASH)' '$(ZSH)'
	install -m 755 argue '$(BIN)/argue'
	install -m 755 out/argue '$(LIBEXEC)/argue'
	install -m 644 out/argue.from dist/made '$(LIBEXEC)/'
	install -m 644 docs/argue.1 '$(MAN)/argue.1'
	install -m 644 LICENSE dist/NOTICE README.md docs/USAGE.md '$(DOC)/'
	install -m 644 completions/argue.bash '$(BASH)/argue'
	install -m 644 completions/_argue '$(ZSH)/_argue'

uninstall:
	rm -f '$(BIN)/argue' '$(MAN)/argue.1' '$(BASH)/argue' '$(ZSH)/_argue'
	rm -rf '$(LIBEXEC)' '$(DOC)'

check-dist:
	dist/check

test:
	dist/test.sh

clean:
	rm -rf out

.PHONY: all install uninstall check-dist test clean
