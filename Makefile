# What can be made here; `make` alone lists it. Everything is built below target/.
#
# LIBDIR is the directory of libedd_desk.a. `make demo LIBDIR=target/standin` takes the model behind the same interface: it needs no rt.

LIBDIR ?= target/staticlib
PREFIX ?= /usr/local
REQUESTS ?= 4000
SEED ?= 1

LIBRARY = $(LIBDIR)/libedd_desk.a
# a directory of its own for the programs over each library: target_staticlib, target_standin
OVER = $(subst /,_,$(patsubst $(CURDIR)/%,%,$(abspath $(LIBDIR))))
DEMO = target/demo/$(OVER)/demo
EXAMPLE = target/example/$(OVER)/example
TOUCH = target/touch/$(OVER)/touch
CFLAGS ?= -O2 -g
HOST_CFLAGS = -std=c11 -D_POSIX_C_SOURCE=200809L -Wall -Wextra -Wshadow -Wconversion $(CFLAGS) -Iinclude
CALLS = version desk_size open write post turn collect withdraw place window block address \
	reader_size reader_open reader_feed reader_end reader_write convert_up convert_down
MODEL = $(if $(shell command -v rustc),target/bench/model.so)

help:
	@echo 'To use the library:'
	@echo 'make library    proves and compiles $(LIBRARY); some minutes the first time'
	@echo 'make install    header, library and pkg-config file below PREFIX=$(PREFIX); DESTDIR is put before it'
	@echo 'make uninstall  removes them again'
	@echo 'To watch it:'
	@echo 'make demo       eight guests on OpenMP threads over one desk; REQUESTS=$(REQUESTS) of each, SEED=$(SEED)'
	@echo 'make example    three guests use the monitor to copy, host/example'
	@echo 'make boot       GRUB, SYSLINUX and two boot sectors boot on the service; says which packages it needs (docs/BOOT.md)'
	@echo 'To test and measure it:'
	@echo 'make tsan       the demo under ThreadSanitizer: no report, and broken rules are reported; not part of the gate'
	@echo 'make touch      which bytes of arena and store a call touches: only those of its guest'
	@echo 'make bench      what a call costs, as ratios to memcpy and to the model (docs/PERFORMANCE.md)'
	@echo 'make test       the host tests (host/test), on what `make check` or `rt run` left in crates/*/out'
	@echo 'make check      the gate (.ci/run): everything proved, then all tests; some 15 minutes on four processors'
	@echo 'make clean      removes target/, and with it the library; what rt keeps in crates/*/out stays'

library: $(LIBRARY)

# ---- install

install: $(LIBRARY)
	@PREFIX='$(PREFIX)' DESTDIR='$(DESTDIR)' includedir='$(includedir)' libdir='$(libdir)' host/install install '$(LIBDIR)'

uninstall:
	@PREFIX='$(PREFIX)' DESTDIR='$(DESTDIR)' includedir='$(includedir)' libdir='$(libdir)' host/install uninstall

# ---- what can be run

# need-cc comes first: who has no compiler should not wait for the proofs to learn it
demo: need-cc $(DEMO)
	$(DEMO) -r $(REQUESTS) -s $(SEED)

example: need-cc $(EXAMPLE)
	$(EXAMPLE)

# what is missing is said before the proofs begin
boot: boot-packages $(LIBRARY)
	host/boot/run $(LIBRARY)

boot-packages:
	@host/boot/run

tsan: $(LIBRARY)
	host/demo/tsan $(LIBDIR)

touch: need-cc $(TOUCH)
	$(TOUCH)

bench: target/bench/bench target/bench/$(OVER).so $(MODEL)
	@[ -n '$(MODEL)' ] || echo 'no rustc: the model is not built, and nothing is compared with it'
	target/bench/bench target/bench/$(OVER).so $(MODEL)

test:
	$(if $(filter-out target/staticlib,$(LIBDIR)),EDD_LIB_DIR='$(abspath $(LIBDIR))') host/test

check:
	.ci/run

clean:
	rm -rf target

# ---- the library, and what stands in for it when the host programs themselves are to be tried

# A proof does not change what is built, so only the sources count.
target/staticlib/libedd_desk.a: crates.txt $(wildcard crates/*/src/*.rt)
	@host/build library

target/standin/libedd_desk.a: $(wildcard host/model/*.rs host/standin/*.rs)
	host/build standin

# ---- the demo

$(DEMO): $(wildcard host/demo/*.[ch]) include/edd_desk.h $(LIBRARY) | need-cc
	@mkdir -p $(@D)
	$(CC) $(HOST_CFLAGS) -fopenmp $(wildcard host/demo/*.c) -L$(LIBDIR) -ledd_desk -o $@

# ---- the monitor to copy

$(EXAMPLE): $(wildcard host/example/*.[ch]) include/edd_desk.h $(LIBRARY) | need-cc
	@mkdir -p $(@D)
	$(CC) $(HOST_CFLAGS) $(wildcard host/example/*.c) -L$(LIBDIR) -ledd_desk -pthread -o $@

# ---- what a call touches

$(TOUCH): host/touch/touch.c include/edd_desk.h $(LIBRARY) | need-cc
	@mkdir -p $(@D)
	$(CC) $(HOST_CFLAGS) -D_DEFAULT_SOURCE host/touch/touch.c -L$(LIBDIR) -ledd_desk -o $@

# ---- the benchmark: the library and the model as shared objects, since both have the same names

target/bench/bench: $(wildcard host/bench/*.[ch]) include/edd_desk.h | need-cc
	@mkdir -p $(@D)
	$(CC) $(HOST_CFLAGS) $(wildcard host/bench/*.c) -ldl -o $@

target/bench/$(OVER).so: $(LIBRARY) | need-cc
	@mkdir -p $(@D)
	$(CC) -shared $(CALLS:%=-Wl,-u,edd_%) $< -o $@

target/bench/model.so: $(wildcard host/model/*.rs host/standin/*.rs)
	@mkdir -p $(@D)
	rustc --edition 2021 -C opt-level=3 --crate-type rlib --crate-name model host/model/lib.rs --out-dir $(@D)
	rustc --edition 2021 -C opt-level=3 --crate-type cdylib --crate-name standin --extern model=$(@D)/libmodel.rlib host/standin/lib.rs -o $@

need-cc:
	@command -v $(firstword $(CC)) >/dev/null || { echo 'no C compiler $(CC): install gcc, or set CC'; exit 1; }

.PHONY: boot boot-packages help library install uninstall demo example tsan touch bench test check clean need-cc
