# Builds, installs and packs the refiner. `make` proves and builds; `make install` takes what was
# built and builds nothing.

PREFIX = /usr/local
BINDIR = $(PREFIX)/bin
LIBDIR = $(PREFIX)/lib
INCLUDEDIR = $(PREFIX)/include
PKGCONFIGDIR = $(LIBDIR)/pkgconfig
MANDIR = $(PREFIX)/share/man

HEADER := importer/include/refiner.h
MANUAL = docs/refine.1
ARCHIVE = crates/refiner/out/librefiner.a
REFINE = $(or $(CARGO_TARGET_DIR),importer/target)/release/refine
DIST = target/dist

VERSION := $(shell sed -n 's/^.define REFINER_VERSION "\(.*\)"$$/\1/p' $(HEADER))
PACKAGE := refiner-$(VERSION)

.PHONY: all install uninstall dist

all:
	tools/build

$(ARCHIVE) $(REFINE):
	@echo "$@ is missing: run make first" >&2; exit 1

install: $(ARCHIVE) $(REFINE)
	install -d "$(DESTDIR)$(BINDIR)" "$(DESTDIR)$(LIBDIR)" "$(DESTDIR)$(INCLUDEDIR)" \
	    "$(DESTDIR)$(PKGCONFIGDIR)" "$(DESTDIR)$(MANDIR)/man1"
	install -m 755 "$(REFINE)" "$(DESTDIR)$(BINDIR)/refine"
	install -m 644 "$(ARCHIVE)" "$(DESTDIR)$(LIBDIR)/librefiner.a"
	install -m 644 "$(HEADER)" "$(DESTDIR)$(INCLUDEDIR)/refiner.h"
	install -m 644 "$(MANUAL)" "$(DESTDIR)$(MANDIR)/man1/refine.1"
	printf '%s\n' \
	    'prefix=$(PREFIX)' \
	    'libdir=$(LIBDIR)' \
	    'includedir=$(INCLUDEDIR)' \
	    '' \
	    'Name: refiner' \
	    'Description: Cheapest legal placement of one or two rows of cells, proved' \
	    'Version: $(VERSION)' \
	    'Cflags: -I$${includedir}' \
	    'Libs: -L$${libdir} -lrefiner' \
	    > "$(DESTDIR)$(PKGCONFIGDIR)/refiner.pc"
	chmod 644 "$(DESTDIR)$(PKGCONFIGDIR)/refiner.pc"

uninstall:
	rm -f "$(DESTDIR)$(BINDIR)/refine" "$(DESTDIR)$(LIBDIR)/librefiner.a" \
	    "$(DESTDIR)$(INCLUDEDIR)/refiner.h" "$(DESTDIR)$(PKGCONFIGDIR)/refiner.pc" \
	    "$(DESTDIR)$(MANDIR)/man1/refine.1"

# The tracked files as the last commit has them.
dist:
	mkdir -p "$(DIST)"
	git archive --format=tar --prefix=$(PACKAGE)/ -o "$(DIST)/$(PACKAGE).tar" HEAD
	gzip -n -f "$(DIST)/$(PACKAGE).tar"
	cd "$(DIST)" && sha256sum $(PACKAGE).tar.gz > SHA256SUMS
