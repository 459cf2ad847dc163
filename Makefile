# What a host in C links: `make` builds target/libiebus.a, `make install PREFIX=..` puts header, library and iebus.pc in
# place, `make example` builds the example host and `make run` runs it. The toolchain's `rt` is needed where the archive
# of proved code is missing or older than the crates (tests/archive).
VERSION = 3.3
PREFIX ?= /usr/local
CC = gcc
CFLAGS ?= -O2
ALL_CFLAGS = -std=c11 -Wall -Wextra -Werror $(CFLAGS)

OUT = target
LIBRARY = $(OUT)/libiebus.a
EXAMPLE = $(OUT)/host/bench

# it is that of the crate `iebus_c`, which has the functions for C of `unit_exports`, `line_exports` and `roll_keeper`;
# everything else in it is local
ARCHIVE = $(OUT)/staticlib/libiebus.a
HOST = $(patsubst host/%.c,$(OUT)/host/%.o,$(wildcard host/*.c))

all: $(LIBRARY)

# two runs of `rt` would wait for each other
.NOTPARALLEL:

# asked every time, because tests/archive knows best whether there is something to do
$(ARCHIVE): always
	@tests/archive

$(LIBRARY): $(ARCHIVE)
	install -m 644 $< $@

install: $(LIBRARY)
	install -d $(DESTDIR)$(PREFIX)/include $(DESTDIR)$(PREFIX)/lib/pkgconfig
	install -m 644 include/iebus.h $(DESTDIR)$(PREFIX)/include
	install -m 644 $(LIBRARY) $(DESTDIR)$(PREFIX)/lib
	sed -e 's|@PREFIX@|$(abspath $(PREFIX))|' -e 's|@VERSION@|$(VERSION)|' include/iebus.pc.in \
		>$(DESTDIR)$(PREFIX)/lib/pkgconfig/iebus.pc

example: $(EXAMPLE)

run: $(EXAMPLE)
	$(EXAMPLE)

$(EXAMPLE): $(HOST) $(LIBRARY)
	$(CC) $(CFLAGS) $^ -o $@

$(OUT)/host/%.o: host/%.c $(wildcard host/*.h) include/iebus.h
	@mkdir -p $(@D)
	$(CC) $(ALL_CFLAGS) -Iinclude -c $< -o $@

clean:
	rm -rf $(LIBRARY) $(OUT)/host

.PHONY: all install example run clean always
