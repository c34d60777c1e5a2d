# The library for C, Rust and Python.
#   make lib                     target/staticlib/libordc.a and libordc.so, from the proved crate
#   make install PREFIX=/usr     header, both libraries and a pkg-config file
#   make examples                the examples in C, Rust and Python
#   make tests                   the tests of the bindings in Rust and Python
#   make damaged                 damaged texts and values handed to every function, under valgrind
#   make stack                   every function in a thread with the stack that the header promises to be enough
#   make names                   what the archive takes from outside: memcpy and memset alone
#   make programs                the programs beside the second implementation, and the memory of `curves`
#   make wrong-mains             wrong versions of the programs, each of which an input of `make programs` must tell
#   make bench                   the library beside the second implementation (a report, not a test)
# What needs the library builds it first, where it is not there or older than a source.
PREFIX ?= /usr/local
DESTDIR ?=
CC ?= cc
CFLAGS ?= -O2
PYTHON ?= python3
VERSION := 2.0.0
BUILD := $(CURDIR)/target/staticlib
ARCHIVE := $(BUILD)/libordc.a
SHARED := $(BUILD)/libordc.so
WARNINGS := -std=c11 -Wall -Wextra -Werror
SOURCES := crates.txt $(shell find crates -name out -prune -o \( -name '*.rt' -o -name '*.antt' \) -print)
# The programs, and where they stand once they are built.
PROGRAMS := curves price page
PLACE := $(CURDIR)/target/bin
# The second implementation, where cargo puts it.
COMPILED := $(or $(CARGO_TARGET_DIR),$(CURDIR)/reference/target)
REFERENCE := $(COMPILED)/release/reference

.PHONY: lib install examples c-example rust-example python-example tests damaged stack names programs wrong-mains reference built-programs bench
.DELETE_ON_ERROR:

lib: $(ARCHIVE) $(SHARED)

$(ARCHIVE): $(SOURCES)
	@mkdir -p $(BUILD)
	cd crates/ordc_c && rt lib
	install -m 644 crates/ordc_c/out/libordc_c.a $@

# the same code as the archive's, which is position independent
$(SHARED): $(ARCHIVE)
	$(CC) -shared -o $@ -Wl,-soname,libordc.so -Wl,-z,defs -Wl,--whole-archive $< -Wl,--no-whole-archive

install: lib
	install -d $(DESTDIR)$(PREFIX)/include $(DESTDIR)$(PREFIX)/lib/pkgconfig
	install -m 644 include/ordc.h $(DESTDIR)$(PREFIX)/include/ordc.h
	install -m 644 $(ARCHIVE) $(DESTDIR)$(PREFIX)/lib/libordc.a
	install -m 755 $(SHARED) $(DESTDIR)$(PREFIX)/lib/libordc.so
	sed -e 's|@PREFIX@|$(PREFIX)|' -e 's|@VERSION@|$(VERSION)|' bindings/c/ordc.pc.in > $(DESTDIR)$(PREFIX)/lib/pkgconfig/ordc.pc

examples: c-example rust-example python-example

$(BUILD)/example $(BUILD)/damaged $(BUILD)/stack: $(BUILD)/%: bindings/c/%.c include/ordc.h $(ARCHIVE)
	$(CC) $(WARNINGS) -g $(CFLAGS) -pthread -Iinclude $< $(ARCHIVE) -o $@

c-example: $(BUILD)/example
	$(BUILD)/example

rust-example: $(ARCHIVE)
	cd bindings/rust && ORDC_LIB_DIR=$(BUILD) cargo run --offline --quiet --example listing
	cd bindings/rust && ORDC_LIB_DIR=$(BUILD) cargo run --offline --quiet --example edit_snapshot
	cd bindings/rust && ORDC_LIB_DIR=$(BUILD) cargo run --offline --quiet --example suspect_reading

python-example: $(SHARED)
	PYTHONPATH=bindings/python ORDC_LIBRARY=$(SHARED) $(PYTHON) bindings/python/examples/price_folder.py bindings/python/examples/listing.curves bindings/python/examples/snapshots
	PYTHONPATH=bindings/python ORDC_LIBRARY=$(SHARED) $(PYTHON) bindings/python/examples/print_page.py bindings/python/examples/listing.curves
	PYTHONPATH=bindings/python ORDC_LIBRARY=$(SHARED) $(PYTHON) bindings/python/examples/edit_snapshot.py bindings/python/examples/listing.curves bindings/python/examples/snapshots/1-listing.txt C status OUT
	PYTHONPATH=bindings/python ORDC_LIBRARY=$(SHARED) $(PYTHON) bindings/python/examples/suspect_readings.py bindings/python/examples/listing.curves bindings/python/examples/snapshots/6-marked.txt bindings/python/examples/snapshots/7-suspect-hsl.txt

# the tests of the bindings
tests: lib
	cd bindings/rust && ORDC_LIB_DIR=$(BUILD) cargo test --offline --quiet
	PYTHONPATH=bindings/python ORDC_LIBRARY=$(SHARED) $(PYTHON) -m unittest discover -s bindings/python/tests

damaged: $(BUILD)/example $(BUILD)/damaged
	valgrind --quiet --error-exitcode=9 --leak-check=full $(BUILD)/example
	valgrind --quiet --error-exitcode=9 --leak-check=full $(BUILD)/damaged

stack: $(BUILD)/stack
	$(BUILD)/stack

names: $(ARCHIVE)
	test "$$(nm -u $< | sed -n 's/^ *U //p' | sort | tr '\n' ' ')" = "memcpy memset "

reference:
	cd reference && cargo build --offline --release --quiet --target-dir $(COMPILED)

# each proved, built, and run on its stored input
built-programs: $(PROGRAMS:%=$(PLACE)/%)

$(PLACE)/%: $(SOURCES)
	@mkdir -p $(PLACE)
	cd crates/$* && rt run < stdin > $@.stdout 2> $@.log || { cat $@.log; exit 1; }
	cmp $@.stdout crates/$*/stdout
	install crates/$*/out/$* $@

programs: reference built-programs
	$(PYTHON) tests/programs.py $(PLACE) $(REFERENCE)

wrong-mains: reference built-programs
	$(PYTHON) tests/wrong_mains.py $(CURDIR) $(REFERENCE)

bench: $(ARCHIVE)
	cd bench && ORDC_LIB_DIR=$(BUILD) cargo run --offline --release --quiet
