# make install, uninstall     PREFIX, BINDIR, LIBDIR, INCLUDEDIR, MANDIR, DESTDIR
# make package                a tarball and a Debian package of what `make` built, with their checksums, into dist/
# make packaging              headers, symbols, shared object, manual page, install and uninstall, packages: all checked
# make rust                   the Rust wrapper, against dist/

PREFIX ?= /usr/local
BINDIR ?= $(PREFIX)/bin
LIBDIR ?= $(PREFIX)/lib
INCLUDEDIR ?= $(PREFIX)/include
MANDIR ?= $(PREFIX)/share/man

HEADERS = smb3seal.h smb3seal_text.h
INSTALLED = $(HEADERS:%=$(INCLUDEDIR)/%) $(LIBDIR)/libsmb3seal.a $(LIBDIR)/pkgconfig/smb3seal.pc $(MANDIR)/man3/smb3seal.3 \
    $(TOOLS:%=$(BINDIR)/%) $(TOOLS:%=$(MANDIR)/man1/%.1)

# Copies what `make` built, so that it can be run by a user who has no rt.
install:
	@for f in libsmb3seal.a smb3seal.3 $(TOOLS); do test -f dist/$$f || { $(MAKE) --no-print-directory all; break; }; done
	install -d -m 755 $(DESTDIR)$(INCLUDEDIR) $(DESTDIR)$(LIBDIR)/pkgconfig $(DESTDIR)$(MANDIR)/man3 \
		$(DESTDIR)$(BINDIR) $(DESTDIR)$(MANDIR)/man1
	install -m 644 $(HEADERS:%=dist/%) $(DESTDIR)$(INCLUDEDIR)
	install -m 644 dist/libsmb3seal.a $(DESTDIR)$(LIBDIR)
	install -m 644 dist/smb3seal.3 $(DESTDIR)$(MANDIR)/man3
	install -m 755 $(TOOLS:%=dist/%) $(DESTDIR)$(BINDIR)
	install -m 644 $(TOOLS:%=dist/%.1) $(DESTDIR)$(MANDIR)/man1
	version=$$(sed -n 's/^#define SMB3SEAL_VERSION "\(.*\)"/\1/p' dist/smb3seal.h) && \
	sed -e 's|@PREFIX@|$(PREFIX)|' -e 's|@LIBDIR@|$(LIBDIR)|' -e 's|@INCLUDEDIR@|$(INCLUDEDIR)|' -e "s|@VERSION@|$$version|" \
		packaging/smb3seal.pc.in > $(DESTDIR)$(LIBDIR)/pkgconfig/smb3seal.pc
	chmod 644 $(DESTDIR)$(LIBDIR)/pkgconfig/smb3seal.pc

uninstall:
	rm -f $(INSTALLED:%=$(DESTDIR)%)

package: all
	packaging/package dist

packaging: setup-build all
	@packaging/check-headers include/smb3seal.h include/smb3seal_text.h
	@packaging/check-archive dist/libsmb3seal.a include/smb3seal.h
	@packaging/check-manual dist/smb3seal.3 include/smb3seal.h
	@scripts/test-with "install and uninstall" pkgconf -- packaging/check-install
	@scripts/test-with "the packages" pkgconf dpkg -- packaging/check-package

rust: all
	@scripts/test-with "the Rust wrapper" cargo -- packaging/check-rust

.PHONY: install uninstall package packaging rust
