# Installs jt: the header, the libraries, the program, the manual page, the completions and
# documents, which lie beside this file. It needs no compiler.
#
#     make check        compares the files with SHA256SUMS
#     make install      PREFIX=/usr/local, LIBDIR, BINDIR, INCLUDEDIR, DATADIR; DESTDIR is put
#                       before each of them, as for a package
#     make install-lib  installs the header, the libraries, jt.pc and the documents for C
#     make install-program
#                       installs the program, the manual page, the completions, the tutorial
#     make uninstall    with the same variables
#
# jt is for x86-64 Linux with glibc 2.34 or later. KIT names the toolchain that proved it.
PREFIX ?= /usr/local
BINDIR ?= $(PREFIX)/bin
LIBDIR ?= $(PREFIX)/lib
INCLUDEDIR ?= $(PREFIX)/include
DATADIR ?= $(PREFIX)/share
INSTALL ?= install

version := $(shell awk '$$2 == "JT_VERSION" { gsub(/"/, "", $$3); print $$3 }' jt.h)
soname := libjt.so.$(shell echo $(version) | sed -E 's/^(0\.[0-9]+|[0-9]+)\..*/\1/')
shared := libjt.so.$(version)
man := $(DATADIR)/man/man1
bash := $(DATADIR)/bash-completion/completions
zsh := $(DATADIR)/zsh/site-functions
fish := $(DATADIR)/fish/vendor_completions.d
documents := $(DATADIR)/doc/jt
examples := example.c CMakeLists.txt meson.build
licences := LICENSE-MIT LICENSE-APACHE
texts := README.md errors.md CHANGELOG.md

.PHONY: all check install install-lib install-program uninstall
all:

check:
	sha256sum --check --quiet SHA256SUMS

install: install-lib install-program

install-lib:
	$(INSTALL) -d '$(DESTDIR)$(LIBDIR)/pkgconfig' '$(DESTDIR)$(INCLUDEDIR)' \
	    '$(DESTDIR)$(documents)/examples'
	$(INSTALL) -m 644 jt.h '$(DESTDIR)$(INCLUDEDIR)/jt.h'
	$(INSTALL) -m 644 libjt.a '$(DESTDIR)$(LIBDIR)/libjt.a'
	$(INSTALL) -m 644 $(shared) '$(DESTDIR)$(LIBDIR)/$(shared)'
	ln -sf $(shared) '$(DESTDIR)$(LIBDIR)/$(soname)'
	ln -sf $(soname) '$(DESTDIR)$(LIBDIR)/libjt.so'
	sed -e 's|@PREFIX@|$(PREFIX)|' -e 's|@INCLUDEDIR@|$(INCLUDEDIR)|' -e 's|@LIBDIR@|$(LIBDIR)|' \
	    -e 's|@VERSION@|$(version)|' jt.pc.in > '$(DESTDIR)$(LIBDIR)/pkgconfig/jt.pc'
	chmod 644 '$(DESTDIR)$(LIBDIR)/pkgconfig/jt.pc'
	$(INSTALL) -m 644 $(licences) $(texts) '$(DESTDIR)$(documents)'
	$(INSTALL) -m 644 $(examples) '$(DESTDIR)$(documents)/examples'

install-program:
	$(INSTALL) -d '$(DESTDIR)$(BINDIR)' '$(DESTDIR)$(man)' '$(DESTDIR)$(bash)' \
	    '$(DESTDIR)$(zsh)' '$(DESTDIR)$(fish)' '$(DESTDIR)$(documents)'
	$(INSTALL) -m 755 jt '$(DESTDIR)$(BINDIR)/jt'
	$(INSTALL) -m 644 jt.1 '$(DESTDIR)$(man)/jt.1'
	$(INSTALL) -m 644 jt.bash '$(DESTDIR)$(bash)/jt'
	$(INSTALL) -m 644 _jt '$(DESTDIR)$(zsh)/_jt'
	$(INSTALL) -m 644 jt.fish '$(DESTDIR)$(fish)/jt.fish'
	$(INSTALL) -m 644 $(licences) tutorial.md errors.md CHANGELOG.md '$(DESTDIR)$(documents)'

uninstall:
	rm -f '$(DESTDIR)$(BINDIR)/jt' '$(DESTDIR)$(INCLUDEDIR)/jt.h' '$(DESTDIR)$(LIBDIR)/libjt.a' \
	    '$(DESTDIR)$(LIBDIR)/libjt.so' '$(DESTDIR)$(LIBDIR)/$(soname)' \
	    '$(DESTDIR)$(LIBDIR)/$(shared)' '$(DESTDIR)$(LIBDIR)/pkgconfig/jt.pc' \
	    '$(DESTDIR)$(man)/jt.1' '$(DESTDIR)$(bash)/jt' '$(DESTDIR)$(zsh)/_jt' \
	    '$(DESTDIR)$(fish)/jt.fish'
	cd '$(DESTDIR)$(documents)' 2> /dev/null && rm -f $(licences) $(texts) tutorial.md \
	    $(addprefix examples/,$(examples)) && rmdir examples || true
	-rmdir '$(DESTDIR)$(documents)'
