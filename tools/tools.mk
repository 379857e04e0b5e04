# The command of tools/, its examples, its tests and its installation. The Makefile includes this.
#
#   make tools      build/mortarsedge
#   make toolstest  its tests: part of make ctest
#   make examples   the traces and charts of examples/ and tools/test/golden/, written anew
#   make install    command, header, archive, pkg-config file and manual pages; PREFIX and DESTDIR say where
#   make uninstall  removes them

PREFIX ?= /usr/local
DESTDIR ?=
BINDIR = $(PREFIX)/bin
INCLUDEDIR = $(PREFIX)/include
LIBDIR = $(PREFIX)/lib
MANDIR = $(PREFIX)/share/man
INSTALL ?= install

TOOLS = $(wildcard tools/*.c)
TOOLS_HEADERS = $(wildcard tools/*.h) $(BENCH_HEADERS)
TOOLS_PARTS = $(filter-out tools/main.c,$(TOOLS))
MANUAL = tools/man/mortarsedge.1 tools/man/mortarsedge.3 tools/man/plan.5

.PHONY: tools toolstest examples install uninstall

tools: build/mortarsedge

build/mortarsedge: $(TOOLS) $(SIMULATOR) $(TOOLS_HEADERS) $(ARCHIVE) | build
	$(CCALL) -o $@ $(TOOLS) $(SIMULATOR) $(ARCHIVE)

build/mortarsedge_sanitized: $(TOOLS) $(SIMULATOR) $(TOOLS_HEADERS) $(ARCHIVE) | build
	$(CCALL) $(SANITIZE) -o $@ $(TOOLS) $(SIMULATOR) $(ARCHIVE)

# A simulator that answers every offer: the command has to notice that it is wrong.
build/mortarsedge_wrong: $(TOOLS) $(SIMULATOR) $(TOOLS_HEADERS) $(ARCHIVE) | build
	$(CCALL) -DMUTANT=9 -o $@ $(TOOLS) $(SIMULATOR) $(ARCHIVE)

ROUND_TRIPS = tools/test/round_trips.c tools/test/xml.c $(TOOLS_PARTS) $(GENERATOR) bench/make_repeats.c $(SIMULATOR)

build/round_trips: $(ROUND_TRIPS) $(wildcard tools/test/*.h) $(TOOLS_HEADERS) $(ARCHIVE) | build
	$(CCALL) -o $@ $(ROUND_TRIPS) $(ARCHIVE)

HOSTILE = tools/test/hostile.c tools/test/junk.c tools/test/xml.c $(TOOLS_PARTS) $(GENERATOR) $(SIMULATOR)

build/hostile_main.o: tools/main.c $(TOOLS_HEADERS) | build
	$(CCALL) $(SANITIZE) -Dmain=command_main -c -o $@ tools/main.c

build/hostile: $(HOSTILE) build/hostile_main.o $(wildcard tools/test/*.h) $(TOOLS_HEADERS) $(ARCHIVE) | build
	$(CCALL) $(SANITIZE) -o $@ $(HOSTILE) build/hostile_main.o $(ARCHIVE)

ctest: toolstest

toolstest: build/mortarsedge build/mortarsedge_sanitized build/mortarsedge_wrong build/round_trips build/hostile
	build/round_trips $(SEED) 2000
	build/hostile $(SEED) 1000
	tools/test/first_minute.sh build/mortarsedge_sanitized
	tools/test/usage.sh build/mortarsedge_sanitized
	tools/test/texts.sh build/mortarsedge_sanitized
	tools/test/files.sh build/mortarsedge_sanitized build/mortarsedge_wrong
	tools/test/refusals.sh build/mortarsedge_sanitized
	tools/test/refused_steps.sh build/mortarsedge_sanitized
	tools/test/examples.sh build/mortarsedge examples tools/test/golden
	CC="$(CC)" tools/test/install.sh

examples: build/mortarsedge
	examples/make.sh build/mortarsedge examples examples
	examples/make.sh build/mortarsedge tools/test/golden tools/test/golden

build/mortarsedge.pc: tools/mortarsedge.pc.in | build
	sed -e 's|@PREFIX@|$(PREFIX)|' -e 's|@INCLUDEDIR@|$(INCLUDEDIR)|' -e 's|@LIBDIR@|$(LIBDIR)|' $< > $@

.PHONY: build/mortarsedge.pc

install: build/mortarsedge build/mortarsedge.pc $(ARCHIVE)
	$(INSTALL) -d $(DESTDIR)$(BINDIR) $(DESTDIR)$(INCLUDEDIR) $(DESTDIR)$(LIBDIR)/pkgconfig
	$(INSTALL) -d $(DESTDIR)$(MANDIR)/man1 $(DESTDIR)$(MANDIR)/man3 $(DESTDIR)$(MANDIR)/man5
	$(INSTALL) -m 755 build/mortarsedge $(DESTDIR)$(BINDIR)/mortarsedge
	$(INSTALL) -m 644 $(HEADER) $(DESTDIR)$(INCLUDEDIR)/mortarsedge.h
	$(INSTALL) -m 644 $(ARCHIVE) $(DESTDIR)$(LIBDIR)/libmortarsedge.a
	$(INSTALL) -m 644 build/mortarsedge.pc $(DESTDIR)$(LIBDIR)/pkgconfig/mortarsedge.pc
	$(INSTALL) -m 644 tools/man/mortarsedge.1 $(DESTDIR)$(MANDIR)/man1/mortarsedge.1
	$(INSTALL) -m 644 tools/man/mortarsedge.3 $(DESTDIR)$(MANDIR)/man3/mortarsedge.3
	$(INSTALL) -m 644 tools/man/plan.5 $(DESTDIR)$(MANDIR)/man5/plan.5

uninstall:
	rm -f $(DESTDIR)$(BINDIR)/mortarsedge $(DESTDIR)$(INCLUDEDIR)/mortarsedge.h $(DESTDIR)$(LIBDIR)/libmortarsedge.a
	rm -f $(DESTDIR)$(LIBDIR)/pkgconfig/mortarsedge.pc $(DESTDIR)$(MANDIR)/man1/mortarsedge.1
	rm -f $(DESTDIR)$(MANDIR)/man3/mortarsedge.3 $(DESTDIR)$(MANDIR)/man5/plan.5
