# Hedrugal: builds, installs and tests the library for C, keyshow and hedrugal-keys. `make help` lists the targets and the variables.
SHELL := /bin/bash
.SHELLFLAGS := -eu -o pipefail -c
.DELETE_ON_ERROR:
.SECONDARY:
.SUFFIXES:
MAKEFLAGS += --no-builtin-rules
export LC_ALL = C.UTF-8
export PYTHONDONTWRITEBYTECODE = 1

# As packagers set them. LIBDIR is a folder's name below the prefix.
PREFIX ?= /usr/local
LIBDIR ?= lib
DESTDIR ?=
CC ?= cc
CFLAGS ?= -O2 -fstack-protector-strong
CPPFLAGS ?= -D_FORTIFY_SOURCE=2
LDFLAGS ?= -Wl,-z,relro,-z,now
OBJCOPY ?= objcopy
PYTHON ?= /usr/bin/python3

VERSION := $(shell sed -n 's/^\#define HED_VERSION "\(.*\)"$$/\1/p' c/hedrugal.h)
# The manual pages of calls, and each call behind its page, as hedrugal_parser/hed_parser_next.
call_pages := $(notdir $(wildcard docs/man/*.3))
paged_calls := $(shell awk '/^\.Nm/ { for (i = 4; i <= NF; i += 2) print $$2 "/" $$i }' docs/man/*.3)
SONAME := libhedrugal.so.$(firstword $(subst ., ,$(VERSION)))

# The library is that of LIBRARY, else the prebuilt one for the processor of CC, if it was made of the sources that lie here: PROVENANCE beside it
# has their sum. Of other sources rt proves and builds it; without rt it is the prebuilt one, and a line says that the sources are others. keyshow is
# likewise that of KEYSHOW, or linked from a prebuilt object, or what rt makes. The gate takes what is prebuilt, and compares it with what the sources
# make.
has_rt := $(shell command -v rt)
target := $(shell $(CC) -dumpmachine 2> /dev/null)
platform := $(subst -, ,$(target))
prebuilt := prebuilt/$(firstword $(platform))-$(filter linux,$(platform))
processors := x86_64 aarch64
# The crates that the two are made of. (In crates.txt a crate is below those that it stands on.)
prebuilt_crates := $(shell tac crates.txt | awk -F '[: ]+' \
	'BEGIN { below["hedrugal"]; below["keyshow"] } $$1 in below { print $$1; for (i = 2; i <= NF; i++) below[$$i] }')
prebuilt_sources = $(if $(filter aarch64,$(1)),c/kit) $(wildcard $(foreach it,$(prebuilt_crates),$(addprefix crates/$(it)/,src specs proofs)))
# Prints the sum of their sources, as PROVENANCE has it: PROCESSOR
print_sum = { awk -F '[: ]' 'index(" $(prebuilt_crates) ", " " $$1 " ")' crates.txt | sort; \
	find $(call prebuilt_sources,$(1)) -type f | sort | xargs sha256sum; } | sha256sum | cut -d ' ' -f 1
takes_prebuilt := yes
origin := the prebuilt one of $(prebuilt)
reason :=
ifeq ($(and $(LIBRARY),$(KEYSHOW))$(GATE)$(filter-out $(processors:%=prebuilt/%-linux),$(prebuilt)),)
ifeq ($(shell $(call print_sum,$(firstword $(platform)))),$(shell sed -n 's/^sources: //p' $(prebuilt)/PROVENANCE 2> /dev/null))
reason := , made of these sources
else ifneq ($(and $(has_rt),$(filter x86_64,$(platform))),)
takes_prebuilt :=
origin := what rt proved and built
reason := , since $(prebuilt) was made of other sources
else
reason := , made of other sources than these: to prove these needs rt of the Rattle kit
endif
endif
lib := $(or $(LIBRARY),out/lib)
keyshow := $(or $(KEYSHOW),out/bin/keyshow)
# What is copied beside the two libraries.
copied := hedrugal.h hedrugal.pc hedrugal-config.cmake hedrugal-config-version.cmake hedrugal_terminal.h hedrugal_terminal.c
library_files := $(addprefix $(lib)/,libhedrugal.a libhedrugal.so.$(VERSION) $(copied))

.PHONY: all library keys flags prove picture clean help libdir install uninstall test lint numbers format gate-parts FORCE
all: library $(keyshow) out/bin/hedrugal-keys ## builds the library and the programs, in out/lib and out/bin

library: $(library_files) ## builds the library alone
	@$(if $(LIBRARY),,echo 'make: the library is $(origin)$(reason)' >&2)

keys: library hedrugal-keys ## builds the program ./hedrugal-keys, which shows what the keys of a terminal send

# (From another folder, as by make -C, the paths are whole.)
flags: export caller = $(PWD)
flags: library ## prints what to add to a command that compiles a program in C: cc program.c $(make -s flags)
	@folder='$(lib)'; [ "$$caller" -ef . ] || folder=$$(realpath -- "$$folder"); printf '%q %q\n' "-I$$folder" "$$folder/libhedrugal.a"

prove: | out/build ## proves every crate by rt, over what earlier runs kept: an hour and more at first
	@tools/needs.sh ci
	@echo 'make: proves every crate; out/build/prove.log has what rt prints' >&2
	@rt all check $(call proving,prove)
	@echo 'make: every crate is proved'

clean: ## removes what was built, but for what the prover keeps in crates/*/out
	rm -rf out hedrugal-keys rust/target rust/plain/target rust/crossterm/target

help: ## prints this
	@sed -nE 's/^([a-z0-9-]+):[^#]*## (.*)/make \1\t\2/p' Makefile $(wildcard *.mk) | expand -t 22
	@echo
	@echo 'LIBRARY=DIR    a folder with a library that was built from these sources before. Without it it is the one in the folder prebuilt,'
	@echo '               or, if that was made of other sources, what rt proves and builds'
	@echo 'KEYSHOW=FILE   a program keyshow that was built before, in place of one that is built likewise'
	@echo 'RLIBS=DIR      the libraries below the crates hedrugal and keyshow, NAME.rlib, as rt proved them, in place of crates/NAME/out/rlib'
	@echo 'PREFIX=DIR     where make install puts its files: $(PREFIX)'
	@echo 'LIBDIR=NAME    the folder of the libraries below the prefix, such as lib64: $(LIBDIR)'
	@echo 'DESTDIR=DIR    a folder that is put before the prefix, as a package is made'
	@echo 'PARTS="c rust" the parts that make test runs, of which make test-NAME is one alone'
	@echo 'DOC=yes        with it the tests in Rust run the programs of the documentation too, which takes two minutes'
	@echo 'CC, CFLAGS, CPPFLAGS, LDFLAGS, AR, OBJCOPY, PYTHON, as usual'

out/build out/lib out/bin:
	@mkdir -p $@

# What lies in the folder prebuilt, if it is what PROVENANCE there says.
check_prebuilt = (cd $(<D) && sed -n 's/^sha256 $(<F): \(.*\)/\1  $(<F)/p' PROVENANCE | sha256sum --check --status) 2> /dev/null || \
	{ echo "make: $< isn't what $(<D)/PROVENANCE says: get that folder again, as by git checkout $(<D)" >&2; exit 1; }
ifndef platform
lacking = there is no compiler '$(CC)': install gcc, or name another by CC
else ifneq ($(filter-out $(processors:%=prebuilt/%-linux),$(prebuilt)),)
lacking = the library is for Linux on x86-64 and 64-bit ARM alone, and '$(CC)' compiles for $(target)
else
lacking = there is no $@: get that folder again, as by git checkout $(@D), or name a library by LIBRARY
endif
prebuilt/%:
	@echo "make: $(lacking)" >&2; exit 1

# What is proved. By itself a target is proved and built by rt, over what earlier runs kept in crates/*/out. With GATE it is built over what
# the running `rt ci` has proved: see the gate, below.
crate_files := crates.txt $(shell find crates -name out -prune -o -name must-fail -prune -o -type f -print)
kit = $(shell dirname "$$(rt doc 2> /dev/null)")
libraries_of = $(shell sed -nE 's/^$(1)( staticlib)?://p' crates.txt)
# The words by which rattle finds libraries: those of this repository in RLIBS, or where rt leaves them, and the kit's.
rlibs_of = $(if $(wildcard crates/$(1)/src),$(or $(abspath $(RLIBS)),$(CURDIR)/crates/$(1)/out/rlib),$(kit)/rlibs)
over = $(foreach it,std $(1),--extern $(it)=$(call rlibs_of,$(it))/$(it).rlib) -L dependency=$(kit)/rlibs \
	$(if $(RLIBS),-L dependency=$(abspath $(RLIBS)),$(patsubst %/src/lib.rt,-L dependency=$(CURDIR)/%/out/rlib,$(proved_below))) \
	--antt-project $(kit)/rattle/logic/antt-project.json --logic-built $(kit)/logic_built --jobs $(if $(GATE),1,4) --list-axioms
proved_below = $(filter-out crates/test_%,$(wildcard crates/*/src/lib.rt))
# Where a proof of a crate keeps what it checked, for one of the same crate for the other processor. rt keeps it in the crate's folder: NAME
kept_by = --incremental $(if $(GATE)$(RLIBS),$(abspath out/build/$(1).kept),out/incremental)
# The command that proves a folder's src/lib.rt and writes a static library: NAME,LIBRARIES,FILE
static_library = rattle build --crate-name $(1) src/lib.rt $(call over,$(2)) --links $(1)= --crate-type staticlib \
	--toolchain $(kit)/toolchain --backend llvm -o $(abspath $(3))
# Keeps what a command prints in a file of out/build, or of the folder in which packages are made, and shows it if the command fails.
logged = > $(abspath $(log_folder)/$(1).log) 2>&1 || { cat $(abspath $(log_folder)/$(1).log) >&2; exit 1; }
log_folder = $(or $(dist_work),out/build)
# Keeps what rt prints there. Each crate is shown as rt comes to it, and if rt fails, all but the lines of what is proved.
proving = 2>&1 | tee $(abspath out/build/$(1).log) | awk '/: proved$$/ { split($$2, path, ":") } \
	path[1] != crate { crate = path[1]; print "make: proves " crate; fflush() }' >&2 || \
	{ grep -v ': proved$$' $(abspath out/build/$(1).log) >&2; exit 1; }

ifdef GATE
# (A wait takes no processor, and one of the JOBS.)
proved_libraries := out/gate/libraries.proved
out/gate/libraries.proved:
	@tools/gate.sh wait $(patsubst crates/%,%,$(wildcard $(addprefix crates/,$(call libraries_of,hedrugal) $(call libraries_of,keyshow))))
	@touch $@
out/gate/%.proved:
	@tools/gate.sh wait $* && touch $@

out/build/libhedrugal.a: $(proved_libraries) | out/build
	@tools/gate.sh part library '(cd crates/hedrugal && $(call static_library,hedrugal,$(call libraries_of,hedrugal),$@) \
		$(call kept_by,hedrugal)) && tools/axioms.sh hedrugal out/gate/library.log'

crates/%/out/test_calls: out/gate/%.proved ;
else
proved_libraries := $(crate_files)
out/build/libhedrugal.a: $(crate_files) | out/build
	@tools/needs.sh library
	@echo 'make: proves and builds the crate hedrugal and those below it, for minutes; out/build/hedrugal.log has what rt prints' >&2
	@cd crates/hedrugal && $(if $(RLIBS),{ $(call static_library,hedrugal,$(call libraries_of,hedrugal),$@) $(call kept_by,hedrugal); },\
		rt lib --list-axioms) \
		$(call proving,hedrugal)
	@tools/axioms.sh hedrugal out/build/hedrugal.log
	@$(if $(RLIBS),,cp crates/hedrugal/out/libhedrugal.a $@)

crates/keyshow/out/keyshow crates/test_calls/out/test_calls: $(crate_files) | out/build
	@tools/needs.sh library
	@echo 'make: proves and builds the crate $(@F) and those below it, for minutes; out/build/$(@F).log has what rt prints' >&2
	@cd crates/$(@F) && rm -f out/$(@F) && { rt run < /dev/null || [ -x out/$(@F) ]; } $(call proving,$(@F))
	@touch $@
endif

# The library stands on the kit's heap, three functions over malloc, realloc and free. The two become one object, in which only the calls
# of the header keep their names, so that no other library meets them. By its note glibc refuses a program on a processor below x86-64-v2.
out/build/hedrugal.o: out/build/libhedrugal.a
	rm -rf out/build/objects && mkdir -p out/build/objects
	cd out/build/objects && $(AR) x ../libhedrugal.a && $(AR) x $(kit)/c/liblibc_c.a
	$(CC) -nostdlib -r -o out/build/joined.o out/build/objects/*.o
	$(OBJCOPY) --wildcard --keep-global-symbol='hed_*' out/build/joined.o
	$(CC) -nostdlib -r -Wl,-z,x86-64-v2 -o $@ out/build/joined.o

# Makes the shared library of an archive: COMPILER
shared_library = $(1) -shared -Wl,-soname,$(SONAME) -Wl,--version-script=c/hedrugal.map -Wl,-z,now,-z,relro,-z,noexecstack -o $@ \
	-Wl,--whole-archive $< -Wl,--no-whole-archive && ln -f $@ $(@D)/$(SONAME) && ln -f $@ $(@D)/libhedrugal.so

ifndef LIBRARY
# Is written anew once the library comes from elsewhere than before.
out/build/origin: FORCE | out/build
	@echo '$(origin)' | cmp -s - $@ || echo '$(origin)' > $@

ifdef takes_prebuilt
out/lib/libhedrugal.a: $(prebuilt)/libhedrugal.a out/build/origin | out/lib
	@$(check_prebuilt)
	cp $< $@
else
out/lib/libhedrugal.a: out/build/hedrugal.o out/build/origin | out/lib
	rm -f $@ && $(AR) rcs $@ $<
endif

# (Its other names are no symbolic links here: rt refuses those in a repository.)
out/lib/libhedrugal.so.$(VERSION): out/lib/libhedrugal.a c/hedrugal.map | out/lib
	$(call shared_library,$(CC))

$(copied:%=out/lib/%): out/lib/%: c/% | out/lib
	cp $< $@
else
$(library_files):
	$(error there is no $(@F) in LIBRARY, '$(lib)')
ifneq ($(strip $(foreach it,hedrugal.h hedrugal.pc,$(shell [ ! -e $(lib)/$(it) ] || cmp $(lib)/$(it) c/$(it) 2>&1))),)
$(error the library in '$(lib)' was built from other sources: its header or hedrugal.pc is another)
endif
# (The header of an ELF file has its processor by number.)
elf_x86_64 := 62
elf_aarch64 := 183
number := $(if $(platform),$(shell od -An -tu2 -j18 -N2 $(lib)/libhedrugal.so.$(VERSION) 2> /dev/null))
ifneq ($(filter-out $(elf_$(firstword $(platform))),$(number)),)
$(error the library in '$(lib)' is for another processor than '$(CC)' compiles for)
endif
endif

# A program in Rattle, of tools/growth, as a static library.
out/build/lib%.a: tools/growth/%.rt.txt $(proved_libraries) | out/build
	@tools/needs.sh growth
	@$(if $(GATE),,cd crates/termwiz_input && rt lib $(call logged,termwiz_input))
	@folder=$$(mktemp -d) && trap 'rm -rf "$$folder"' EXIT && mkdir "$$folder/src" && cp $< "$$folder/src/lib.rt" && cd "$$folder" && \
		{ $(call static_library,$*,termwiz_input,$@); } $(call logged,$*)

# The programs.
ifdef KEYSHOW
$(keyshow):
	@echo "make: there is no $@, which KEYSHOW names" >&2; exit 1
else ifdef takes_prebuilt
out/bin/keyshow: $(prebuilt)/keyshow.o c/cpuid.c | out/bin
	@$(check_prebuilt)
	$(CC) $(CPPFLAGS) $(CFLAGS) $(LDFLAGS) -o $@ $^
else
out/bin/keyshow: crates/keyshow/out/keyshow | out/bin
	cp $< $@
endif

hedrugal-keys: out/bin/hedrugal-keys
	cp $< $@

out/bin/hedrugal-keys: $(wildcard keys/*.[ch] c/hedrugal_terminal.[ch] c/name_errors.h) $(lib)/libhedrugal.a | out/bin
	$(CC) -std=c11 $(CPPFLAGS) $(CFLAGS) -fPIE -I$(lib) -Ic keys/*.c c/hedrugal_terminal.c $(lib)/libhedrugal.a $(LDFLAGS) -pie -o $@

# The picture takes as long as the recording did. termtosvg ends where its input does, and sets the size of its terminal after the program's start.
picture: out/bin/hedrugal-keys ## makes the moving picture of README.md from docs/pictures/keys.cast
	@tools/needs.sh picture
	sleep 15 | TERM=xterm NO_COLOR= termtosvg docs/pictures/keys.svg -g 80x13 -t window_frame -D 3000 \
		-c "sh -c 'sleep 0.5; exec $< --real-time --replay docs/pictures/keys.cast'"
	sed -i 's/ *$$//' docs/pictures/keys.svg

# Install. Relative folders are those of the folder in which make runs.
destdir = $(shell realpath -ms -- '$(DESTDIR)/')
prefix = $(shell realpath -ms -- '$(PREFIX)')
root = $(patsubst %/,%,$(if $(DESTDIR),$(destdir)))$(patsubst %/,%,$(prefix))
installed = include/hedrugal.h include/hedrugal_terminal.h share/hedrugal/hedrugal_terminal.c \
	$(addprefix $(LIBDIR)/,libhedrugal.a libhedrugal.so.$(VERSION) $(SONAME) libhedrugal.so pkgconfig/hedrugal.pc \
	cmake/hedrugal/hedrugal-config.cmake cmake/hedrugal/hedrugal-config-version.cmake) \
	bin/keyshow bin/hedrugal-keys share/man/man1/keyshow.1 share/man/man1/hedrugal-keys.1 \
	$(addprefix share/man/man3/,$(call_pages) $(addsuffix .3,$(notdir $(paged_calls))))
# hedrugal.pc and hedrugal-config.cmake name no folder but by where they lie themselves, so the prefix may be moved as a whole.
up = $(shell realpath -ms --relative-to='/$(LIBDIR)/pkgconfig' /)

libdir:
	@[[ '/$(LIBDIR)/' != *//* && '/$(LIBDIR)/' != */.*/* && '$(LIBDIR)' != *[^A-Za-z0-9_+./-]* ]] || \
	{ echo "make: LIBDIR wants a folder's name below the prefix, and not '$(LIBDIR)'" >&2; exit 1; }

install: libdir all ## puts the library, the programs and their manual pages below DESTDIR and PREFIX
	install -d '$(root)'/{include,$(LIBDIR)/pkgconfig,$(LIBDIR)/cmake/hedrugal,bin,share/hedrugal,share/man/man1,share/man/man3}
	install -m 644 $(lib)/hedrugal.h $(lib)/hedrugal_terminal.h '$(root)/include/'
	install -m 644 $(lib)/hedrugal_terminal.c '$(root)/share/hedrugal/'
	install -m 644 $(lib)/libhedrugal.a '$(root)/$(LIBDIR)/'
	install -m 755 $(lib)/libhedrugal.so.$(VERSION) '$(root)/$(LIBDIR)/'
	for name in $(SONAME) libhedrugal.so; do ln -sfn libhedrugal.so.$(VERSION) "$(root)/$(LIBDIR)/$$name"; done
	sed -e '/^#/d' -e 's|^prefix=.*|prefix=$${pcfiledir}/$(up)|' -e 's|^includedir=.*|&/include|' -e 's|^libdir=.*|&/$(LIBDIR)|' \
		-e 's|^terminal=.*/|terminal=$${prefix}/share/hedrugal/|' \
		c/hedrugal.pc | install -m 644 /dev/stdin '$(root)/$(LIBDIR)/pkgconfig/hedrugal.pc'
	sed -e '/^#/d' -e 's|^set(_hedrugal_prefix.*|get_filename_component(_hedrugal_prefix "$${_hedrugal_here}/../$(up)" ABSOLUTE)|' \
		-e '/^set(_hedrugal_include/s|prefix}|&/include|' -e '/^set(_hedrugal_lib/s|prefix}|&/$(LIBDIR)|' \
		-e '/^set(_hedrugal_terminal/s|prefix}|&/share/hedrugal|' \
		c/hedrugal-config.cmake | install -m 644 /dev/stdin '$(root)/$(LIBDIR)/cmake/hedrugal/hedrugal-config.cmake'
	install -m 644 c/hedrugal-config-version.cmake '$(root)/$(LIBDIR)/cmake/hedrugal/'
	install -m 755 $(keyshow) '$(root)/bin/keyshow'
	install -m 755 out/bin/hedrugal-keys '$(root)/bin/'
	install -m 644 docs/man/*.1 '$(root)/share/man/man1/'
	install -m 644 $(call_pages:%=docs/man/%) '$(root)/share/man/man3/'
	@for it in $(paged_calls); do ln -sfn "$${it%/*}.3" "$(root)/share/man/man3/$${it#*/}.3"; done
	@echo 'make: wrote $(words $(installed)) files below $(or $(root),/)'

# The folders of the system stay, but in a DESTDIR. Those with our name are none of them.
uninstall: libdir ## removes these files, and their folders that are left empty, but for those of /, /usr and /usr/local
	@removed=0; for file in $(installed); do \
	  if [ -e "$(root)/$$file" ] || [ -L "$(root)/$$file" ]; then rm "$(root)/$$file"; removed=$$((removed + 1)); \
	  else echo "make: there was no $(root)/$$file" >&2; fi; \
	done; \
	if [[ '$(DESTDIR)' || ! '$(prefix)' =~ ^/(usr(/local)?)?$$ ]] && cd "$(if $(DESTDIR),$(destdir),$$(dirname '$(root)'))" 2> /dev/null; then \
	  for folder in $$(dirname $(installed) | sort -u); do \
	    rmdir -p "$$(realpath -ms --relative-to="$$PWD" "$(root)/$$folder")" 2> /dev/null || true; \
	  done; \
	else \
	  rmdir '$(root)'/{share,$(LIBDIR)/cmake}/hedrugal 2> /dev/null || true; \
	fi; \
	echo "make: removed $$removed files below $(or $(root),/)"; \
	[ $$removed -gt 0 ]

# Packages.
include $(wildcard *.mk)

# Tests. Each part by itself is `make test-NAME`; the last line of what it prints counts its cases.
test_calls := crates/test_calls/out/test_calls
rattle_tests := tests/test_rattle.py tests/test_timed.py
gate_parts := ci library lint numbers c-arm64 tests-arm64 clone rust programs scenarios page packages c python docs install fuzz \
	prebuilt growth refusals rattle listings axioms
gate_tests := $(filter-out ci library,$(gate_parts))
# What the tests of a part read.
export HEDRUGAL_LIBRARY := $(abspath $(lib))
export HEDRUGAL_KEYS := $(abspath out/bin/hedrugal-keys)

test-lint := pre-commit run --all-files
test-numbers := $(PYTHON) tools/interface --check
test-c := tools/c_test.sh
test-c-arm64 := CC=aarch64-linux-gnu-gcc CXX=aarch64-linux-gnu-g++ EMULATOR='qemu-aarch64-static -L /usr/aarch64-linux-gnu' \
	HEDRUGAL_LIBRARY=$(arm64)/lib tools/c_test.sh
test-rust := tools/rust_test.sh $(if $(DOC),--doc)
test-python := $(PYTHON) -m pytest python
test-programs := $(PYTHON) -m pytest $(filter-out tests/test_page% tests/test_scenarios.py $(rattle_tests),$(wildcard tests/test_*.py))
test-scenarios := $(PYTHON) -m pytest tests/test_scenarios.py
test-page := $(PYTHON) -m pytest $(wildcard tests/test_page*.py)
test-install := tools/install_test.sh
test-packages := tools/package_test.sh
test-clone := tools/clone_test.sh
test-tests-arm64 := tools/clone_test.sh arm64 tests
test-docs := tools/docs.sh --library $(lib) --only links,table,c,rust,python,rattle,lines
test-fuzz := tools/fuzz.sh 30
test-axioms := tools/axioms.sh keyshow $(processors:%=out/build/keyshow-%.log)
test-growth := tools/growth.sh out/build/libfeed.a
test-refusals := tools/refusals.sh
test-rattle := TEST_CALLS=$(abspath $(test_calls)) $(PYTHON) -m pytest $(rattle_tests)
test-prebuilt := $(MAKE) --silent prebuilt-check
test-listings := tools/docs.sh --library $(lib) --built --only sh,keyshow

.PHONY: gate-ci gate-library $(foreach it,$(gate_tests),test-$(it) gate-$(it))
$(foreach it,$(filter-out lint numbers axioms clone c-arm64 tests-arm64 prebuilt,$(gate_tests)),test-$(it) gate-$(it)): all
test-growth gate-growth: out/build/libfeed.a
test-refusals gate-refusals test-rattle gate-rattle: $(test_calls)
test-axioms gate-axioms: $(processors:%=out/build/%/keyshow.o)
test-c-arm64 gate-c-arm64: arm64-library
gate-prebuilt: $(processors:%=out/prebuilt/%-linux/PROVENANCE)
$(addprefix test-,$(gate_tests)): test-%:
	@tools/needs.sh $*
	@KEYSHOW=$(abspath $(keyshow)) $($@)

lint: test-lint ## checks the layout of the sources in C, Rust and Python, and runs flake8 and shellcheck

numbers: ## writes what is made of c/hedrugal.h: declarations and numbers in Rust and Python, lists of calls and manual pages
	$(PYTHON) tools/interface

format: ## lays out the sources in C, Rust and Python
	git ls-files -z '*.[ch]' | xargs -0 clang-format-14 -i
	git ls-files -z '*.rs' | xargs -0 rustfmt --edition 2021
	git ls-files -z '*.py' | xargs -0 black --quiet --line-length 100

# `make test`. With the kit on the path it is the gate: each part runs `make test-NAME` once what it needs is there, and out/gate/NAME.log keeps
# what it printed.
#
# `rt ci` is the first part: it proves each crate from nothing, or takes what an earlier run on this machine proved of the same files. The
# tests run beside it from the start, over what the folder prebuilt has, and are preferred to it. The part prebuilt shows that these are the
# bytes that the sources make. `rt ci` keeps no static library, and leaves what it proves without the stamp by which `rt lib` would know it.
# So the library is proved and built by rattle itself over the libraries that `rt ci` has written to crates/*/out by then, and nothing below
# it is proved twice. It comes early, since it takes longest where the rest is kept. Other parts that wait for a proof come last, as a wait is
# one of the JOBS.
JOBS ?= 7

ifneq ($(if $(PARTS),,$(has_rt)),)
test: ## runs the gate, which is every proof and every test; without the kit the tests in C, Rust and Python whose tools are there
	@tools/needs.sh all
	@rm -rf out crates/*/out/rlib
	@exec tools/gate.sh gate '$(MAKE) --no-print-directory -k -j$(JOBS) gate-parts GATE=yes LIBRARY= KEYSHOW= RLIBS=' $(gate_parts)
else
# (What PARTS names is run, or fails for want of its tools.)
without_kit := c rust python
test: all
	@rm -rf out/gate
	@run=($(PARTS)) left=(); \
	for part in $(if $(PARTS),,$(without_kit)); do if tools/needs.sh $$part; then run+=($$part); else left+=($$part); fi; done; \
	left+=($(if $(PARTS),,$(filter-out $(without_kit),$(gate_parts)))); \
	exec tools/gate.sh test "make -s test-% LIBRARY='$(lib)' KEYSHOW='$(keyshow)' DOC=$(DOC)" "$${run[*]}" "$${left[*]}"
endif

gate-parts: $(addprefix gate-,$(gate_parts))
gate-ci:
	@tools/gate.sh part ci 'nice -n 5 rt ci'
gate-library: out/build/libhedrugal.a
gate-listings: out/gate/example.proved
$(addprefix gate-,$(gate_tests)): gate-%:
	@tools/gate.sh part $* 'make -s test-$* LIBRARY=out/lib KEYSHOW=out/bin/keyshow DOC=yes'
