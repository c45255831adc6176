# make: the static library, the shared one, the lister and the tidier. make shared, test, bench, install (PREFIX, LIBDIR, DESTDIR), uninstall, clean.
PREFIX ?= /usr/local
LIBDIR ?= $(PREFIX)/lib
DESTDIR ?=
# The one version number. Its first part is CB_VERSION, and the shared library's (tests/version).
VERSION := $(shell cat VERSION)
MAJOR := $(firstword $(subst ., ,$(VERSION)))

BIN = $(DESTDIR)$(PREFIX)/bin
LIB = $(DESTDIR)$(LIBDIR)
CMAKE = $(LIB)/cmake/callbridge
INCLUDE = $(DESTDIR)$(PREFIX)/include
MAN = $(DESTDIR)$(PREFIX)/share/man
DOC = $(DESTDIR)$(PREFIX)/share/doc/callbridge

# The static libraries whose functions C calls. `rt lib` exports those of the crate in whose folder it is called; all are joined in one archive.
# Unlike a program, a library does not look at what processor it runs on: it has code for all of x86-64.
BRIDGES = callbridge_c
ARCHIVES = $(foreach bridge,$(BRIDGES),crates/$(bridge)/out/lib$(bridge).a)
LIBRARY = target/staticlib/libcallbridge.a
SHARED = target/shared/libcallbridge.so.$(VERSION)
LISTER = target/bin/lister
TIDIER = target/bin/tidier
SOURCES = crates.txt $(shell find crates -path '*/out' -prune -o -type f '(' -name '*.rt' -o -name '*.antt' ')' -print)

# What is built is x86-64 code, whatever machine builds it: on another one Debian's compiler for x86-64 links the shared library.
MACHINE := $(shell uname -m)
ifeq ($(MACHINE),x86_64)
LINK = $(CC)
JOIN = ar
else
LINK = x86_64-linux-gnu-gcc-12
JOIN = x86_64-linux-gnu-ar
endif

all: $(LIBRARY) shared $(LISTER) $(TIDIER)

$(LIBRARY): $(ARCHIVES)
	mkdir -p target/staticlib
	cp $< $@
	cd target/staticlib && for bridge in $(filter-out $(firstword $(BRIDGES)),$(BRIDGES)); do \
	    $(JOIN) x ../../crates/$$bridge/out/lib$$bridge.a && $(JOIN) qs libcallbridge.a $$bridge.o && rm $$bridge.o || exit 1; done

# What `rt` proves and builds stands in the out/ of a crate's folder. It is as old as what was proved last, where nothing has changed since.
define built_archive
crates/$(1)/out/lib$(1).a: $$(SOURCES)
	cd crates/$(1) && rt lib --cpu x86-64
	touch $$@
endef
$(foreach bridge,$(BRIDGES),$(eval $(call built_archive,$(bridge))))

# `rt run` starts what it has built: on no input, and what is written then is thrown away.
define built_program
target/bin/$(1): crates/$(1)/out/$(1)
	mkdir -p target/bin
	cp $$< $$@
crates/$(1)/out/$(1): $$(SOURCES)
	cd crates/$(1) && rt run </dev/null >/dev/null
	touch $$@
endef
$(foreach program,lister tidier text_vectors,$(eval $(call built_program,$(program))))

shared: $(SHARED)

# The proved code of the static library, whole, linked once more. It gives the names of the header and no other (names); -z text refuses code that
# is not position independent, -z defs a name that neither the library nor C's has.
$(SHARED): $(LIBRARY) VERSION
	mkdir -p target/shared
	printf 'CALLBRIDGE_%s { global: cb_*; local: *; };\n' $(MAJOR) > target/shared/names
	$(LINK) -shared -nostartfiles $(LDFLAGS) -Wl,-soname,libcallbridge.so.$(MAJOR) -Wl,--version-script=target/shared/names \
	    -Wl,-z,text -Wl,-z,defs -Wl,-z,relro -Wl,-z,now -Wl,-z,noexecstack \
	    -Wl,--whole-archive $(LIBRARY) -Wl,--no-whole-archive -o $@
	ln -sf libcallbridge.so.$(VERSION) target/shared/libcallbridge.so.$(MAJOR)
	ln -sf libcallbridge.so.$(MAJOR) target/shared/libcallbridge.so

test:
	./test

bench: all
	bench/run

FILLED = sed -e 's|@PREFIX@|$(PREFIX)|' -e 's|@LIBDIR@|$(LIBDIR)|' -e 's|@VERSION@|$(VERSION)|' -e 's|@MAJOR@|$(MAJOR)|' \
    -e 's|@INCLUDE@|'$$(realpath -m --relative-to=$(LIBDIR)/cmake/callbridge $(PREFIX)/include)'|'

install: all
	@[ "$(MACHINE)" = x86_64 ] || echo "make install: this machine is $(MACHINE); what is installed is x86-64 code, for programs of x86-64 machines"
	install -d $(BIN) $(LIB)/pkgconfig $(CMAKE) $(INCLUDE) $(MAN)/man1 $(MAN)/man3 $(MAN)/man5 $(DOC)
	install -m 644 include/callbridge.h $(INCLUDE)/callbridge.h
	install -m 644 $(LIBRARY) $(LIB)/libcallbridge.a
	install -m 755 $(SHARED) $(LIB)/libcallbridge.so.$(VERSION)
	ln -sf libcallbridge.so.$(VERSION) $(LIB)/libcallbridge.so.$(MAJOR)
	ln -sf libcallbridge.so.$(MAJOR) $(LIB)/libcallbridge.so
	$(FILLED) packaging/callbridge.pc.in > $(LIB)/pkgconfig/callbridge.pc
	$(FILLED) packaging/callbridge-static.pc.in > $(LIB)/pkgconfig/callbridge-static.pc
	$(FILLED) packaging/callbridge-config.cmake.in > $(CMAKE)/callbridge-config.cmake
	$(FILLED) packaging/callbridge-config-version.cmake.in > $(CMAKE)/callbridge-config-version.cmake
	install -m 755 $(LISTER) $(BIN)/kcb-list
	install -m 755 $(TIDIER) $(BIN)/kcb-tidy
	install -m 644 man/kcb-list.1 $(MAN)/man1/kcb-list.1
	install -m 644 man/kcb-tidy.1 $(MAN)/man1/kcb-tidy.1
	install -m 644 man/callbridge.3 $(MAN)/man3/callbridge.3
	install -m 644 man/kcb.5 $(MAN)/man5/kcb.5
	install -m 644 LICENSE $(DOC)/LICENSE
	[ -n "$(DESTDIR)" ] || ! [ -w /etc/ld.so.cache ] || ldconfig

uninstall:
	rm -f $(INCLUDE)/callbridge.h $(BIN)/kcb-list $(BIN)/kcb-tidy $(MAN)/man1/kcb-list.1 $(MAN)/man1/kcb-tidy.1 $(MAN)/man3/callbridge.3 $(MAN)/man5/kcb.5 $(DOC)/LICENSE
	rm -f $(LIB)/libcallbridge.a $(LIB)/libcallbridge.so.$(VERSION) $(LIB)/libcallbridge.so.$(MAJOR) $(LIB)/libcallbridge.so
	rm -f $(LIB)/pkgconfig/callbridge.pc $(LIB)/pkgconfig/callbridge-static.pc
	rm -f $(CMAKE)/callbridge-config.cmake $(CMAKE)/callbridge-config-version.cmake
	rmdir $(CMAKE) $(DOC) 2>/dev/null || true

clean:
	rm -rf target tests/target bindings/rust/target crates/*/out

.PHONY: all shared test bench install uninstall clean
