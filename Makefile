# make: the library for C, proved and built. make install: the library, its header and its pkg-config file under PREFIX.
PREFIX ?= /usr/local
VERSION := $(shell sed -n 's/.*SHODH_VERSION "\(.*\)"/\1/p' include/shodhvirup.h)

built = target/lib
sources = $(shell find crates crates.txt -name out -prune -o -type f \( -name '*.rt' -o -name '*.antt' -o -name crates.txt \) -print)

.PHONY: lib install

lib: $(built)/libshodhvirup.a $(built)/pkgconfig/shodhvirup.pc

$(built)/libshodhvirup.a: $(sources)
	@mkdir -p $(@D)
	(cd crates/portal && rt lib) >target/staticlib.log 2>&1 || { cat target/staticlib.log; exit 1; }
	cp crates/portal/out/libportal.a $@

$(built)/pkgconfig/shodhvirup.pc: shodhvirup.pc.in Makefile FORCE
	@mkdir -p $(@D)
	sed -e 's,@PREFIX@,$(PREFIX),' -e 's,@VERSION@,$(VERSION),' shodhvirup.pc.in >$@

install: lib
	install -d $(DESTDIR)$(PREFIX)/lib/pkgconfig $(DESTDIR)$(PREFIX)/include
	install -m 644 $(built)/libshodhvirup.a $(DESTDIR)$(PREFIX)/lib/
	install -m 644 $(built)/pkgconfig/shodhvirup.pc $(DESTDIR)$(PREFIX)/lib/pkgconfig/
	install -m 644 include/shodhvirup.h $(DESTDIR)$(PREFIX)/include/

.PHONY: FORCE
FORCE:
