# The LanQ process machine.
#
#     make                       proves and builds the library, and builds the command, target/bin/lanq; with JOBS=N, N crates
#                                are proved at a time
#     make test                  the gate, .ci/run
#     make install PREFIX=DIR    puts header, library, pkg-config file and command below DIR, /usr/local unless said

PREFIX ?= /usr/local
DESTDIR ?=

# One crate for each processor, as far as there are 4 GB for each.
JOBS ?= $(shell awk -v n="$$(nproc)" '/^MemAvailable:/ { m = int($$2 / 4000000); print m < 1 ? 1 : m < n ? m : n }' /proc/meminfo)

LIBRARY := target/staticlib/liblanq.a
COMMAND := target/bin/lanq
VERSION := $(shell sed -n 's/^.define LANQ_VERSION "\(.*\)"/\1/p' include/lanq.h)
PROVED := crates.txt $(shell find crates -name out -prune -o \( -name '*.rt' -o -name '*.antt' \) -print)
RUST := $(shell find rust -name target -prune -o \( -name '*.rs' -o -name 'Cargo.*' \) -print)

# Where things are put, and what the pkg-config file says of it.
PLACE := $(DESTDIR)$(abspath $(PREFIX))

.PHONY: all library command test install install-library install-command

all: library command

library: $(LIBRARY)

command: $(COMMAND)

# Every crate is proved, unless it is proved as it stands. rt all check proves crates that do not depend on each other at the
# same time; rt lib would prove those below lanq one after the other, and finds them proved. At the repository's top rt would
# also look through rust/ and target/, and stop at a link there.
$(LIBRARY): $(PROVED)
	cd crates && rt all check --jobs $(JOBS)
	cd crates/lanq && rt lib
	mkdir -p $(@D)
	new=$@.$$$$; cp crates/lanq/out/liblanq.a $$new && mv $$new $@

$(COMMAND): $(LIBRARY) $(RUST)
	cd rust && cargo build --release --offline -p cli
	mkdir -p target/bin
	cp rust/target/release/lanq $@

test:
	.ci/run

install: install-library install-command

install-library: $(LIBRARY)
	install -d $(PLACE)/include $(PLACE)/lib/pkgconfig
	install -m 644 include/lanq.h $(PLACE)/include/lanq.h
	install -m 644 $(LIBRARY) $(PLACE)/lib/liblanq.a
	printf '%s\n' 'prefix=$(abspath $(PREFIX))' 'includedir=$${prefix}/include' 'libdir=$${prefix}/lib' '' \
	  'Name: lanq' 'Description: The LanQ process machine, proved' 'Version: $(VERSION)' \
	  'Cflags: -I$${includedir}' 'Libs: -L$${libdir} -llanq' > $(PLACE)/lib/pkgconfig/lanq.pc

install-command: $(COMMAND)
	install -d $(PLACE)/bin
	install -m 755 $(COMMAND) $(PLACE)/bin/lanq
