# make            the library, libstamp.a and libstamp.so.1.4, and the tool build/stamp, for this machine
# make test       the gate
# make install    library, header, stamp.pc, tool and man page, under PREFIX, the library in LIBDIR; all below DESTDIR if there is one
# make uninstall  takes away what make install puts there, given the same words
# make compare    the library beside the second program, over more than two thousand million calls; some minutes
# make measure    our calls beside a plain C version, timed; the table goes to docs/MEASURE.md
# The library is proved and compiled by the Rattle kit's `rt`, which runs on x86-64. For 64-bit Arm it is made there too, after `make clean`:
# make MACHINE=aarch64 CC=aarch64-linux-gnu-gcc.
PREFIX ?= /usr/local
LIBDIR ?= $(PREFIX)/lib
MACHINE := $(shell uname -m)
RELEASE := $(shell sed -n 's/.*STAMP_RELEASE "\(.*\)".*/\1/p' include/stamp.h)
SHARED := libstamp.so.$(RELEASE)
SONAME := libstamp.so.$(firstword $(subst ., ,$(RELEASE)))
# All that the proofs read; out/ is what `rt` makes of it.
PROOFS := $(shell find crates crates.txt -path 'crates/*/out' -prune -o -type f -print)
HEADER := include/stamp.h
TOOL := $(wildcard tool/*.c)
HEADER_TESTS := $(wildcard tool/tests/header*.c)
MASS := $(wildcard mass/*.c) $(wildcard second/fast_*.c)
COMPILE = $(CC) -std=c99 -O2 -Wall -Wextra $(CFLAGS) -Iinclude

all: libstamp.a $(SHARED) build/stamp

# ---- The library and the tool

libstamp.a: $(PROOFS) packaging/archive
	@packaging/needs build $(CC)
	packaging/archive boundary_c $(MACHINE) $@

# It needs no other library; were a function of the C library called one day, -lc is there for it.
$(SHARED): libstamp.a packaging/exports
	$(CC) -shared -nostdlib $(LDFLAGS) -Wl,-soname,$(SONAME) -Wl,--version-script=packaging/exports -Wl,-z,defs,-z,now,--as-needed \
	    -Wl,--whole-archive libstamp.a -Wl,--no-whole-archive -lc -o $@

build/stamp: $(TOOL) $(wildcard tool/*.h) $(HEADER) libstamp.a | build
	$(COMPILE) $(TOOL) libstamp.a $(LDFLAGS) -o $@

build:
	mkdir $@

# ---- Installed

# The folders of the installed files; stamp.pc has them without DESTDIR.
LIBRARY = $(DESTDIR)$(LIBDIR)
PKGCONFIG = $(LIBRARY)/pkgconfig
INCLUDE = $(DESTDIR)$(PREFIX)/include
BIN = $(DESTDIR)$(PREFIX)/bin
MAN = $(DESTDIR)$(PREFIX)/share/man/man1
# Programs find shared libraries by a cache, which ldconfig writes if it is root's; files below a DESTDIR are not yet where they will be.
CACHE = $(if $(DESTDIR),,@ldconfig >/dev/null 2>&1 || true)

install: all
	install -d "$(LIBRARY)" "$(PKGCONFIG)" "$(INCLUDE)" "$(BIN)" "$(MAN)"
	install -m 644 libstamp.a "$(LIBRARY)"
	install -m 755 $(SHARED) "$(LIBRARY)"
	ln -sf $(SHARED) "$(LIBRARY)/$(SONAME)"
	ln -sf $(SONAME) "$(LIBRARY)/libstamp.so"
	printf '%s\n' 'prefix=$(PREFIX)' 'libdir=$(patsubst $(PREFIX)/%,$${prefix}/%,$(LIBDIR))' 'Name: stamp' \
	    'Description: dates and times in the BDE BER date-and-time format, proved' 'Version: $(RELEASE)' \
	    'Cflags: -I$${prefix}/include' 'Libs: -L$${libdir} -lstamp' >"$(PKGCONFIG)/stamp.pc"
	chmod 644 "$(PKGCONFIG)/stamp.pc"
	install -m 644 $(HEADER) "$(INCLUDE)"
	install -m 755 build/stamp "$(BIN)"
	install -m 644 docs/stamp.1 "$(MAN)"
	$(CACHE)

uninstall:
	rm -f "$(LIBRARY)/libstamp.a" "$(LIBRARY)/$(SHARED)" "$(LIBRARY)/$(SONAME)" "$(LIBRARY)/libstamp.so" "$(PKGCONFIG)/stamp.pc"
	rm -f "$(INCLUDE)/stamp.h" "$(BIN)/stamp" "$(MAN)/stamp.1"
	$(CACHE)

# ---- Tests

test: able
	bash .ci/run

able:
	@packaging/needs tests $(CC)

# What the gate runs: the header's tests as C and as C++, and the tool under the address and undefined-behaviour sanitizers.
build/header: $(HEADER_TESTS) tool/tests/header.h $(HEADER) libstamp.a | build
	$(COMPILE) $(HEADER_TESTS) libstamp.a $(LDFLAGS) -o $@

build/header-c++: $(HEADER_TESTS) tool/tests/header.h $(HEADER) libstamp.a | build
	$(CXX) -x c++ -std=c++17 -O2 -Wall -Wextra -Iinclude $(HEADER_TESTS) -x none libstamp.a $(LDFLAGS) -o $@

build/stamp-sanitized: $(TOOL) $(wildcard tool/*.h) $(HEADER) libstamp.a | build
	$(COMPILE) -g -O1 -fsanitize=address,undefined -fno-sanitize-recover=all $(TOOL) libstamp.a -o $@

build/mass: $(MASS) $(wildcard mass/*.h) $(wildcard second/fast*.h) $(HEADER) libstamp.a | build
	$(COMPILE) $(MASS) libstamp.a $(LDFLAGS) -o $@

compare: build/mass
	build/mass cases <crates/compare/stdin >build/cases
	cmp build/cases crates/compare/stdout
	build/mass

# ---- The measure

# The plain C is compiled as the kit compiles the library: by the same compiler at the same level. It comes without the C library's headers, and takes
# those of CC.
CLANG = $(shell packaging/toolchain)/bin/clang
LEVEL := -O3 -fPIC
KIT = $(shell rt version)
PLAIN := $(patsubst measure/%.c,build/%.o,$(wildcard measure/plain_*.c))
SYSTEM = $(addprefix -isystem ,$(shell $(CC) -E -Wp,-v -x c /dev/null 2>&1 | sed -n 's/^ \//\//p'))

# Behind libstamp.a, so that two checks are not run at once.
build/libmeasured.a: $(PROOFS) packaging/archive | build libstamp.a
	packaging/archive measured $(MACHINE) $@

build/%.o: measure/%.c $(wildcard measure/*.h) $(HEADER) Makefile | build
	$(CLANG) --target=$(MACHINE)-unknown-linux-gnu -std=c99 $(LEVEL) -DLEVEL='"$(LEVEL)"' -DKIT='"$(KIT)"' -Wall -Wextra $(SYSTEM) -Iinclude -c $< -o $@

build/measure: build/measure.o $(PLAIN) libstamp.a build/libmeasured.a
	$(CC) $^ -o $@

measure: able build/measure
	python3 measure/run.py build/measure

clean:
	rm -rf build libstamp.a libstamp.so.*

.PHONY: all install uninstall test able compare measure clean
# What a step left that failed is not taken for done.
.DELETE_ON_ERROR:
