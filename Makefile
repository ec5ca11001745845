.POSIX:
.PHONY: all archive run test dist install uninstall needs-rt

CC = cc
RT = rt
BIN = bin
PREFIX = /usr/local
BINDIR = $(PREFIX)/bin
LIBDIR = $(BINDIR)/../lib/kolbista
ARCHIVEDIR = $(PREFIX)/lib
INCLUDEDIR = $(PREFIX)/include
MANDIR = $(PREFIX)/share/man
DOCDIR = $(PREFIX)/share/doc/kolbista
TOOLS = record picture curve sites ways check from shell page
PAGES = vmreplay.1 dtrun.1 vmcompare.1 vmimage.1 vmrecord.1 vmpicture.1 vmcurve.1 vmsites.1 vmways.1 vmcheck.1 vmfrom.1 vmshell.1 vmpage.1

# Proves the four programs and all below them, runs each on its sample, and leaves them in bin/.
all: needs-rt
	cd crates/vmreplay && $(RT) run < stdin > /dev/null
	cd crates/dtrun && $(RT) run < stdin > /dev/null
	cd crates/vmcompare && $(RT) run < stdin > /dev/null
	cd crates/vmimage && $(RT) run -- show data/fruit.image > /dev/null
	mkdir -p bin
	cp -f crates/vmreplay/out/vmreplay bin/vmreplay
	cp -f crates/dtrun/out/dtrun bin/dtrun
	cp -f crates/vmcompare/out/vmcompare bin/vmcompare
	cp -f crates/vmimage/out/vmimage bin/vmimage
	rm -f bin/UNPROVED

# Proves the library for C, over what make proved, and leaves its archive in bin/.
archive: needs-rt
	cd crates/kolbista_c && $(RT) lib
	mkdir -p bin
	tools/archive.sh "$$(dirname "$$($(RT) doc)")" crates/kolbista_c/out/libkolbista_c.a bin/libkolbista.a

# The quick way to programs: compiles each without proving it, leaves it in bin/ and runs it on its sample. What is in bin/ is
# taken where no source is newer. bin/UNPROVED names those that aren't proved.
run:
	@RT='$(RT)' BIN='$(BIN)' tools/try.sh

needs-rt:
	@command -v $(RT) > /dev/null || { echo 'no command $(RT): it is that of the Rattle toolchain, whose kit has it in its folder bin, to be put on the PATH; no package has it. README.md names the kit' >&2; exit 127; }

# The whole gate, and then the examples and the tools by the programs that it leaves.
test: needs-rt
	.ci/run

# A tarball of the sources with their version, which builds and tests as they do: what isn't made, from here.
dist:
	set -e; name=kolbista-$$(cat VERSION); rm -rf "$$name" "$$name.tar.gz"; mkdir "$$name"; \
	find . -name .git -prune -o -path ./bin -prune -o -path './crates/*/out' -prune -o -path "./kolbista-*" -prune -o -name __pycache__ -prune \
	    -o -type f -print | sort | tar -cf - -T - | tar -xf - -C "$$name"; \
	tar -czf "$$name.tar.gz" "$$name"; rm -rf "$$name"; echo "$$name.tar.gz"

# Installs what make left in bin/, and makes it first where it isn't there; and the tools, which record needs a C compiler for.
install: $(BIN)/vmreplay $(BIN)/dtrun $(BIN)/vmcompare $(BIN)/vmimage
	! test -f $(BIN)/UNPROVED || $(MAKE) all
	mkdir -p $(DESTDIR)$(BINDIR) $(DESTDIR)$(MANDIR)/man1 $(DESTDIR)$(DOCDIR)/examples
	cp -f $(BIN)/vmreplay $(BIN)/dtrun $(BIN)/vmcompare $(BIN)/vmimage $(DESTDIR)$(BINDIR)
	for tool in $(TOOLS); do cp -f tools/$$tool $(DESTDIR)$(BINDIR)/vm$$tool && chmod 755 $(DESTDIR)$(BINDIR)/vm$$tool || exit 1; done
	cd $(DESTDIR)$(BINDIR) && chmod 755 vmreplay dtrun vmcompare vmimage
	for page in $(PAGES); do cp -f man/$$page $(DESTDIR)$(MANDIR)/man1 || exit 1; done
	cp -f docs/script.md docs/messages.md docs/compare.md docs/image.md $(DESTDIR)$(DOCDIR)
	cp -f examples/README.md examples/*.c examples/*.vm examples/*.dt examples/*.trace examples/*.image examples/*.save examples/*.words examples/*.replies $(DESTDIR)$(DOCDIR)/examples
	cd $(DESTDIR)$(MANDIR)/man1 && chmod 644 $(PAGES)
	chmod 644 $(DESTDIR)$(DOCDIR)/*.md $(DESTDIR)$(DOCDIR)/examples/*
	if test -f $(BIN)/libkolbista.a; then \
	    mkdir -p $(DESTDIR)$(ARCHIVEDIR)/pkgconfig $(DESTDIR)$(INCLUDEDIR) $(DESTDIR)$(MANDIR)/man3 && \
	    cp -f $(BIN)/libkolbista.a $(DESTDIR)$(ARCHIVEDIR) && \
	    cp -f include/kolbista.h $(DESTDIR)$(INCLUDEDIR) && \
	    cp -f man/kolbista.3 $(DESTDIR)$(MANDIR)/man3 && \
	    printf 'Name: kolbista\nDescription: scripts over memory regions and dictionaries\nVersion: %s\nLibs: -L%s -lkolbista\nCflags: -I%s\n' \
	        "$$(cat VERSION)" $(ARCHIVEDIR) $(INCLUDEDIR) > $(DESTDIR)$(ARCHIVEDIR)/pkgconfig/kolbista.pc; \
	else \
	    echo 'no library for C is installed: make archive leaves it in bin/'; \
	fi
	if command -v $(CC) > /dev/null; then \
	    mkdir -p $(DESTDIR)$(LIBDIR) && \
	    $(CC) -O2 -fno-builtin -shared -fPIC -o $(DESTDIR)$(LIBDIR)/record.so tools/record.c -ldl -lpthread; \
	else \
	    echo 'vmrecord has no library: there is no C compiler $(CC)'; \
	fi

uninstall:
	for name in vmreplay dtrun vmcompare vmimage; do rm -f $(DESTDIR)$(BINDIR)/$$name; done
	for tool in $(TOOLS); do rm -f $(DESTDIR)$(BINDIR)/vm$$tool; done
	for page in $(PAGES); do rm -f $(DESTDIR)$(MANDIR)/man1/$$page; done
	rm -f $(DESTDIR)$(ARCHIVEDIR)/libkolbista.a $(DESTDIR)$(ARCHIVEDIR)/pkgconfig/kolbista.pc $(DESTDIR)$(INCLUDEDIR)/kolbista.h $(DESTDIR)$(MANDIR)/man3/kolbista.3
	rm -rf $(DESTDIR)$(LIBDIR) $(DESTDIR)$(DOCDIR)

$(BIN)/vmreplay:
	$(MAKE) all

$(BIN)/dtrun: $(BIN)/vmreplay
	test -x $(BIN)/dtrun || $(MAKE) all

$(BIN)/vmcompare: $(BIN)/dtrun
	test -x $(BIN)/vmcompare || $(MAKE) all

$(BIN)/vmimage: $(BIN)/vmcompare
	test -x $(BIN)/vmimage || $(MAKE) all
