# Proves and writes the static library and kbdtrace: make
# Installs the static library, its header and its pkg-config file: make install PREFIX=/some/where
# DESTDIR stands before each path that is written to; the pkg-config file names PREFIX alone.
PREFIX = /usr/local
VERSION = $(shell sed -n 's/.define XIQUEPAZO_VERSION "\(.*\)"/\1/p' include/xiquepazo.h)

prefix = $(abspath $(PREFIX))
library = $(DESTDIR)$(prefix)/lib
header = $(DESTDIR)$(prefix)/include
archive = target/staticlib/libxiquepazo.a
program = target/bin/kbdtrace
sources = crates.txt $(shell find crates \( -name must-fail -o -name out \) -prune -o -type f -print)

.PHONY: all install
all: $(archive) $(program)

$(archive): $(sources)
	cd crates/xiquepazo && rt lib
	install -D -m 644 crates/xiquepazo/out/libxiquepazo.a $@

# It is proved, linked, and run once on an empty pack.
$(program): $(sources)
	cd crates/kbdtrace && rt run < /dev/null
	install -D crates/kbdtrace/out/kbdtrace $@

install: $(archive)
	install -d $(library)/pkgconfig $(header)
	install -m 644 $(archive) $(library)
	install -m 644 include/xiquepazo.h $(header)
	printf '%s\n' 'prefix=$(prefix)' 'includedir=$${prefix}/include' 'libdir=$${prefix}/lib' '' \
		'Name: xiquepazo' 'Description: AT keyboard service for panels' 'Version: $(VERSION)' \
		'Cflags: -I$${includedir}' 'Libs: -L$${libdir} -lxiquepazo' \
		| install -m 644 /dev/stdin $(library)/pkgconfig/xiquepazo.pc
