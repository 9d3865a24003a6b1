# The library for a controller: build it, install it with its header and its pkg-config file, try it, measure it.
#
#   make                      prove and build target/staticlib/libgate.a (some minutes; needs the Rattle toolchain, rt)
#   make install PREFIX=/usr  copy it to PREFIX (/usr/local if none is given), below DESTDIR if that is given
#   make check                lint, try the library from C and Rust, and count it; bash .ci/run proves all anew
#   make bench                try the gate in plain C against the library, then the tables of docs/PERFORMANCE.md
#   make dist                 an archive for planners in target/dist: both programs, tools/plan, examples, manual
#   make clean                remove what this file makes, and nothing that rt keeps
PREFIX ?= /usr/local
given := $(PREFIX)
# A path may have blanks. make's functions would take it for several, so its blanks are spelled out on the way through.
empty :=
blank := $(empty) $(empty)
joined = $(subst $(blank),<blank>,$(1))
parted = $(subst <blank>,$(blank),$(1))
override PREFIX := $(call parted,$(abspath $(call joined,$(PREFIX))))
LIBDIR ?= $(PREFIX)/lib
INCLUDEDIR ?= $(PREFIX)/include
DESTDIR ?=
VERSION := 0.3.0

library := target/staticlib/libgate.a
sources := crates.txt $(shell find crates -path 'crates/*/out' -prune -o \( -name '*.rt' -o -name '*.antt' \) -print)

.PHONY: all lib places install check bench dist clean
all: lib
lib: $(library)

# Only a proved library is written: rt makes it in the crate of its exports, crates/gate_c. The file gets today's time
# even if rt found it proved and left it as it was.
target/staticlib/lib%.a: $(sources)
	@command -v rt > /dev/null || { echo "rt of the Rattle toolchain is not installed: it builds lib$*.a" >&2; exit 1; }
	@echo "building lib$*.a, which is proved first: some minutes" >&2
	@mkdir -p target/staticlib
	@(cd crates/$*_c && rt lib) > target/$*.log 2>&1 || { tail -n 20 target/$*.log >&2; exit 1; }
	@install -m 644 crates/$*_c/out/lib$*_c.a $@

# What make, the shell, sed or pkg-config would take for its own is refused before anything is done.
tab := $(empty)	$(empty)
hash := \#
define newline


endef
odd = $(foreach one,' " ` \ | & % $$ $(hash),$(findstring $(one),$(1)))$(foreach one,tab newline,$(if \
    $(findstring $($(one)),$(1)),$(one)))
places:
	$(foreach name,given LIBDIR INCLUDEDIR DESTDIR,$(if $(strip $(call odd,$($(name)))), \
	    $(error '$($(name))': a place may have blanks, but no tab, no newline and none of ' " ` \ | & % $$ $(hash))))

# A place by the prefix where it is below it.
below = $(call parted,$(patsubst $(call joined,$(PREFIX))/%,$${prefix}/%,$(call joined,$(1))))

# The pkg-config file names the places without DESTDIR, where the files only wait to be packed, and by its own prefix
# where they are below it, so that a copied tree needs one line changed.
install: places $(library)
	install -d "$(DESTDIR)$(LIBDIR)/pkgconfig" "$(DESTDIR)$(INCLUDEDIR)"
	install -m 644 $(library) "$(DESTDIR)$(LIBDIR)/libgate.a"
	install -m 644 include/sorter_gate.h "$(DESTDIR)$(INCLUDEDIR)/sorter_gate.h"
	sed -e 's|@PREFIX@|$(PREFIX)|' -e 's|@LIBDIR@|$(call below,$(LIBDIR))|' \
	    -e 's|@INCLUDEDIR@|$(call below,$(INCLUDEDIR))|' -e 's|@VERSION@|$(VERSION)|' \
	    sorter_gate.pc.in > "$(DESTDIR)$(LIBDIR)/pkgconfig/sorter_gate.pc"
	chmod 644 "$(DESTDIR)$(LIBDIR)/pkgconfig/sorter_gate.pc"

check: $(library)
	python3 tests/tables --check
	bash tests/lint.sh
	bash tests/archive.sh
	python3 tests/line_l.py
	python3 tests/edits.py
	python3 tests/times.py --check
	bash tests/gate.sh
	python3 tests/index.py --check
	python3 tests/named.py
	bash tests/install.sh
	bash tests/storing.sh
	bash tests/owing.sh
	python3 tests/owed.py
	python3 bench/stack.py
	python3 tests/ratios.py
	bash tests/bindings.sh
	bash tests/questions.sh
	python3 tests/manuals.py

bench: $(library)
	python3 bench/run.py

# What a planner needs beside Python: no toolchain, no sources. Each archive of the same files is the same, byte for byte.
dist_name := kolluwar-plan-$(VERSION)
dist_files := LICENSE judge tools/plan tools/rewrite tools/office tools/planner docs/PLANNER.md docs/QUESTIONS.md \
    $(wildcard docs/page*.png) examples/visit examples/today
dist:
	@./judge --program office > /dev/null
	@./judge --program rewrite > /dev/null
	@rm -rf target/dist && mkdir -p target/dist/$(dist_name)/target/bin
	@cp --parents -R $(dist_files) target/dist/$(dist_name)
	@install -m 755 target/bin/office target/bin/rewrite target/dist/$(dist_name)/target/bin
	@find target/dist -name __pycache__ -prune -exec rm -rf {} +
	@find target/dist/$(dist_name)/examples \( -name '*.html' -o -name '*.before.*' -o -name timeline.csv \
	    -o -name line.out \) -delete
	@sed 's|@VERSION@|$(VERSION)|' tools/README-dist > target/dist/$(dist_name)/README
	@cd target/dist && tar --sort=name --mtime='1980-01-01 UTC' --owner=0 --group=0 --numeric-owner --mode=u+rw,go+r-w \
	    -cf - $(dist_name) | gzip -9n > $(dist_name).tar.gz
	@rm -rf target/dist/$(dist_name)
	@echo target/dist/$(dist_name).tar.gz

clean:
	rm -rf target/dist target/staticlib target/bindings target/lint target/gate.log
