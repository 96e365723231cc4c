# The library for programs in C: builds and installs it, runs the example, measures the stack.
#
#   make                  proves the library and builds libedn_c.a (`rt lib`, in crates/edn_c: many minutes, once);
#                         EDN_LIB_DIR=FOLDER takes the libedn_c.a of that folder, and needs no toolchain but C's
#   make install          edn.h, libedn_c.a and edn.pc to PREFIX (/usr/local), under DESTDIR
#   make uninstall        removes these three files
#   make example          builds and runs examples/sheet.c
#   make stack            measures the stack that each function uses (examples/stack.c)
#   make clean            removes what this file made in target/c; the archive stays

PREFIX = /usr/local
DESTDIR ?=
EDN_LIB_DIR ?=

CFLAGS ?= -O2
WARNINGS = -std=c99 -Wall -Wextra -Wpedantic -Wconversion -Wshadow -Werror
INSTALL = install

# make takes a blank for the end of a name.
ifneq ($(word 2,x$(EDN_LIB_DIR)x),)
$(error EDN_LIB_DIR is "$(EDN_LIB_DIR)": that has a blank in it, and make cannot read a file there; \
  move the folder, or name it by a symbolic link without one)
endif

made = target/c
header = include/edn.h
library = crates/edn_c
archive = $(if $(EDN_LIB_DIR),$(EDN_LIB_DIR),$(library)/out)/libedn_c.a

include_dir = $(DESTDIR)$(PREFIX)/include
lib_dir = $(DESTDIR)$(PREFIX)/lib
pc_dir = $(lib_dir)/pkgconfig

all: $(archive)

# What `rt` makes, in the folder out of each crate, is no source. Nor is what is hidden: editors have their locks and swap files beside one.
sources = crates.txt $(shell find $(filter-out %/out,$(wildcard crates/*/*)) -name '.*' -prune -o -type f -print)

# `rt` does not prove again what is proved. Without --cpu the code would be for newer processors only.
ifeq ($(EDN_LIB_DIR),)
$(archive): $(sources)
	cd $(library) && rt lib --cpu=x86-64
endif

# The version is said once, in the header.
version_part = $(shell sed -n 's/^\#define EDN_VERSION_$(1) \([0-9]*\)$$/\1/p' $(header))
version = $(call version_part,MAJOR).$(call version_part,MINOR).$(call version_part,PATCH)

$(made)/edn.pc: edn.pc.in $(header) Makefile
	@mkdir -p $(made)
	sed 's/@VERSION@/$(version)/' edn.pc.in > $@

install: $(archive) $(made)/edn.pc
	$(INSTALL) -d "$(include_dir)" "$(lib_dir)" "$(pc_dir)"
	$(INSTALL) -m 644 $(header) "$(include_dir)/edn.h"
	$(INSTALL) -m 644 $(archive) "$(lib_dir)/libedn_c.a"
	$(INSTALL) -m 644 $(made)/edn.pc "$(pc_dir)/edn.pc"

uninstall:
	rm -f "$(include_dir)/edn.h" "$(lib_dir)/libedn_c.a" "$(pc_dir)/edn.pc"

$(made)/%: examples/%.c $(header) $(archive)
	@mkdir -p $(made)
	$(CC) $(WARNINGS) $(CPPFLAGS) $(CFLAGS) -I include $< $(archive) $(LDFLAGS) -o $@

example: $(made)/sheet
	$(made)/sheet

stack: $(made)/stack
	$(made)/stack

clean:
	rm -rf $(made)

.PHONY: all install uninstall example stack clean
