# The C library.
#   make                    the static library, made and proved with rt unless it is up to date (tools/library)
#   make install            header, archive, cuffgarnet.pc, licences: into PREFIX (/usr/local), below DESTDIR if that is set
#   make uninstall          takes them out again
# LIBDIR and INCLUDEDIR name other folders than lib and include below PREFIX. LIB names an archive that is there already; then nothing is made.

PREFIX ?= /usr/local
INCLUDEDIR ?= $(PREFIX)/include
LIBDIR ?= $(PREFIX)/lib
DOCDIR ?= $(PREFIX)/share/doc/cuffgarnet
INSTALL ?= install
LIB ?=

VERSION := $(shell sed -n 's/^\#define CUFFGARNET_VERSION "\(.*\)"/\1/p' include/cuffgarnet.h)
MADE = target/staticlib/libcuffgarnet.a
DOCS = LICENSE-MIT LICENSE-APACHE NOTICE

all: library

library:
	$(if $(LIB),,tools/library)

install: library
	$(INSTALL) -d '$(DESTDIR)$(INCLUDEDIR)' '$(DESTDIR)$(LIBDIR)/pkgconfig' '$(DESTDIR)$(DOCDIR)'
	$(INSTALL) -m 644 include/cuffgarnet.h '$(DESTDIR)$(INCLUDEDIR)/cuffgarnet.h'
	$(INSTALL) -m 644 '$(or $(LIB),$(MADE))' '$(DESTDIR)$(LIBDIR)/libcuffgarnet.a'
	sed -e 's|@prefix@|$(PREFIX)|' -e 's|@includedir@|$(INCLUDEDIR)|' -e 's|@libdir@|$(LIBDIR)|' -e 's|@version@|$(VERSION)|' \
	    cuffgarnet.pc.in >'$(DESTDIR)$(LIBDIR)/pkgconfig/cuffgarnet.pc'
	chmod 644 '$(DESTDIR)$(LIBDIR)/pkgconfig/cuffgarnet.pc'
	$(INSTALL) -m 644 $(DOCS) '$(DESTDIR)$(DOCDIR)'

uninstall:
	rm -f '$(DESTDIR)$(INCLUDEDIR)/cuffgarnet.h' '$(DESTDIR)$(LIBDIR)/libcuffgarnet.a' '$(DESTDIR)$(LIBDIR)/pkgconfig/cuffgarnet.pc'
	rm -rf '$(DESTDIR)$(DOCDIR)'

.PHONY: all library install uninstall
