# Builds Tackacorn for use from the program you have. It needs the Rattle kit (`rt`) and a C compiler.
#
#   make                    build/libtackacorn.a, build/libtackacorn.so and build/tackacorn
#   make test               tries the command, the calls and the header (host/test)
#   make install            puts them with the header, a pkg-config file and the man page under PREFIX,
#                           /usr/local where it is not given; DESTDIR goes before every path
#   make uninstall, make clean
#
# All that the library does but its words is proved first: that takes some minutes, once. The kit and what is
# built are for x86-64. On a machine that is none the kit's own compiler, linker and C library are used in
# place of the machine's, as with KIT=1, and `host/run build/tackacorn ..` runs what is built under the
# emulator qemu-x86_64; the kit brings none, and runs under one itself there.

RT ?= rt
ifneq ($(findstring /,$(RT)),)
override RT := $(abspath $(RT))
endif
PREFIX ?= /usr/local
ifeq ($(filter /%,$(PREFIX)),)
override PREFIX := $(CURDIR)/$(PREFIX)
endif
BINDIR ?= $(PREFIX)/bin
INCLUDEDIR ?= $(PREFIX)/include
LIBDIR ?= $(PREFIX)/lib
MANDIR ?= $(PREFIX)/share/man
BUILD ?= build
CFLAGS ?= -O2

KIT ?= $(if $(filter x86_64,$(shell uname -m)),,1)
ifneq ($(KIT),)
CC := host/kit/cc
AR := host/kit/ar
LINK_PROGRAM := host/kit/link
LINK_SHARED := host/kit/link --shared
else
LINK_PROGRAM := $(CC) $(LDFLAGS)
LINK_SHARED := $(CC) $(LDFLAGS) -shared
endif
COMPILE := $(CC) -std=c11 -Wall -Wextra -Wpedantic -Wconversion -Wshadow -fPIC $(CPPFLAGS) -Iinclude $(CFLAGS)

LIMIT := $(shell sed -n 's/^.define TACKACORN_TEXT_LIMIT //p' include/tackacorn.h)
LEVELS := $(shell sed -n 's/^.define TACKACORN_LEVEL_LIMIT //p' include/tackacorn.h)
LAST_DAY := $(shell sed -n 's/^.define TACKACORN_LAST_DAY //p' include/tackacorn.h)
VERSION := $(shell sed -n 's/^.define TACKACORN_VERSION "\(.*\)"/\1/p' include/tackacorn.h)
SONAME := libtackacorn.so.$(firstword $(subst ., ,$(VERSION)))
SHARED := libtackacorn.so.$(VERSION)
PROVED := crates/capi_c/out/libcapi_c.a
CRATES := $(shell find crates \( -path '*/must-fail' -o -path 'crates/*/out' \) -prune -o \( -name '*.rt' -o -name '*.antt' \) -print)
COMMAND := $(patsubst host/command/%.c,$(BUILD)/command/%.o,$(wildcard host/command/*.c))
FILL := sed -e 's|@VERSION@|$(VERSION)|g' -e 's|@LIMIT@|$(LIMIT)|g' -e 's|@LEVELS@|$(LEVELS)|g' -e 's|@LAST_DAY@|$(LAST_DAY)|g' \
    -e 's|@PREFIX@|$(PREFIX)|g' -e 's|@LIBDIR@|$(LIBDIR)|g' -e 's|@INCLUDEDIR@|$(INCLUDEDIR)|g'

.PHONY: all test install uninstall clean
.DELETE_ON_ERROR:

all: $(BUILD)/libtackacorn.a $(BUILD)/libtackacorn.so $(BUILD)/tackacorn $(BUILD)/tackacorn.1

$(PROVED): crates.txt $(CRATES)
	@command -v $(RT) >/dev/null || { echo "make: $(RT) is not on the path: the Rattle kit is needed to prove the library" >&2; exit 1; }
	cd crates/capi_c && $(RT) lib --cpu x86-64
	@touch $@

$(BUILD)/words.o: host/library/words.c include/tackacorn.h
	@mkdir -p $(@D)
	$(COMPILE) -c $< -o $@

$(BUILD)/libtackacorn.a: $(PROVED) $(BUILD)/words.o
	cp $(PROVED) $@.part
	$(AR) rs $@.part $(BUILD)/words.o
	mv $@.part $@

$(BUILD)/$(SHARED): $(BUILD)/libtackacorn.a host/library/exports.map
	$(LINK_SHARED) -Wl,-soname,$(SONAME) -Wl,--version-script=host/library/exports.map -Wl,-z,defs -o $@ \
	    -Wl,--whole-archive $(BUILD)/libtackacorn.a -Wl,--no-whole-archive

$(BUILD)/libtackacorn.so: $(BUILD)/$(SHARED)
	ln -sf $(SHARED) $(BUILD)/$(SONAME)
	ln -sf $(SONAME) $@

$(BUILD)/command/%.o: host/command/%.c host/command/command.h include/tackacorn.h
	@mkdir -p $(@D)
	$(COMPILE) -c $< -o $@

$(BUILD)/tackacorn: $(COMMAND) $(BUILD)/libtackacorn.a
	$(LINK_PROGRAM) -o $@ $(COMMAND) $(BUILD)/libtackacorn.a

$(BUILD)/tackacorn.1: host/tackacorn.1.in include/tackacorn.h
	@mkdir -p $(@D)
	$(FILL) $< > $@

test:
	host/test $(if $(KIT),--kit)

install: all
	install -d "$(DESTDIR)$(BINDIR)" "$(DESTDIR)$(INCLUDEDIR)" "$(DESTDIR)$(LIBDIR)/pkgconfig" "$(DESTDIR)$(MANDIR)/man1"
	install -m 755 $(BUILD)/tackacorn "$(DESTDIR)$(BINDIR)/tackacorn"
	install -m 644 include/tackacorn.h "$(DESTDIR)$(INCLUDEDIR)/tackacorn.h"
	install -m 644 $(BUILD)/libtackacorn.a "$(DESTDIR)$(LIBDIR)/libtackacorn.a"
	install -m 755 $(BUILD)/$(SHARED) "$(DESTDIR)$(LIBDIR)/$(SHARED)"
	ln -sf $(SHARED) "$(DESTDIR)$(LIBDIR)/$(SONAME)"
	ln -sf $(SONAME) "$(DESTDIR)$(LIBDIR)/libtackacorn.so"
	$(FILL) host/library/tackacorn.pc.in > "$(DESTDIR)$(LIBDIR)/pkgconfig/tackacorn.pc"
	chmod 644 "$(DESTDIR)$(LIBDIR)/pkgconfig/tackacorn.pc"
	install -m 644 $(BUILD)/tackacorn.1 "$(DESTDIR)$(MANDIR)/man1/tackacorn.1"

uninstall:
	rm -f "$(DESTDIR)$(BINDIR)/tackacorn" "$(DESTDIR)$(INCLUDEDIR)/tackacorn.h" "$(DESTDIR)$(LIBDIR)/libtackacorn.a"
	rm -f "$(DESTDIR)$(LIBDIR)/$(SHARED)" "$(DESTDIR)$(LIBDIR)/$(SONAME)" "$(DESTDIR)$(LIBDIR)/libtackacorn.so"
	rm -f "$(DESTDIR)$(LIBDIR)/pkgconfig/tackacorn.pc" "$(DESTDIR)$(MANDIR)/man1/tackacorn.1"

clean:
	rm -rf build
