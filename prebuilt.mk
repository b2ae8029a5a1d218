# prebuilt/: for machines without the kit, the archive of the library and the program keyshow as an object, for two processors.
# python/prebuilt/: the shared library for Python, made of that archive, and the part of the Python package that is compiled.
# PROVENANCE beside them says of what they were made, and by which proofs. What is built again has to be the same bytes: make prebuilt-check.
.PHONY: prebuilt prebuilt-check python-prebuilt
prebuilt_folders := $(processors:%=prebuilt/%-linux)
python_folders := $(processors:%=python/prebuilt/%-linux)

prebuilt: $(prebuilt_folders:%=out/%/PROVENANCE) ## proves and builds what the folders prebuilt and python/prebuilt have, and writes it there
	@mkdir -p prebuilt && cp -r out/prebuilt/. prebuilt/
	@$(MAKE) --silent python-prebuilt
	@echo 'make: wrote $(words $(processors)) folders of prebuilt'

python-prebuilt: $(python_folders:%=out/%/PROVENANCE) ## makes what python/prebuilt has of the folder prebuilt and python/compiled, without the kit
	@mkdir -p python/prebuilt && cp -r out/python/prebuilt/. python/prebuilt/

prebuilt-check: $(prebuilt_folders:%=out/%/PROVENANCE) $(python_folders:%=out/%/PROVENANCE) ## says whether both have the bytes that are built again
	@$(foreach it,$(prebuilt_folders) $(python_folders),$(call is_prebuilt,$(it)) &&) echo 'make: prebuilt has what these sources make'

# Whether a folder has what was built again. The same bytes may come of a kit of another name.
is_prebuilt = { diff -r -I '^kit: ' $(1) out/$(1) || \
	{ echo "make: $(1) isn't what these sources make: make prebuilt writes it anew" >&2; false; }; }

# All proofs are over the same libraries: those of RLIBS, or those that `rt ci` or, for the library, `rt lib` proved. The proof of a crate for
# ARM takes from that for x86-64 what is the same in both.
out/build/aarch64/libhedrugal.a: out/build/libhedrugal.a
	@mkdir -p $(@D)
	@cd crates/hedrugal && { $(call static_library,hedrugal,$(call libraries_of,hedrugal),$@) $(call kept_by,hedrugal) \
		--target aarch64-unknown-linux-gnu; } $(call logged,hedrugal-aarch64)
	@tools/axioms.sh hedrugal out/build/hedrugal-aarch64.log

out/build/aarch64/keyshow.o: out/build/x86_64/keyshow.o
out/build/%/keyshow.o: $(proved_libraries) $(if $(RLIBS)$(GATE),,| out/build/libhedrugal.a)
	@mkdir -p $(@D)
	@cd crates/keyshow && rattle build --crate-name keyshow src/main.rt $(call over,$(call libraries_of,keyshow)) $(call kept_by,keyshow) \
		--toolchain $(kit)/toolchain --backend llvm --target $*-unknown-linux-gnu -o $(abspath $@) $(call logged,keyshow-$*)

# Joins what rattle made with the C functions on which it stands to one object, in which only these names stay: PROCESSOR,SOURCES,NAMES
joined = $(1)-linux-gnu-gcc -O2 -fPIC -fstack-protector-strong -nostdlib -r -o $@ -Wl,--whole-archive $< -Wl,--no-whole-archive $(2) && \
	$(1)-linux-gnu-objcopy --wildcard --keep-global-symbol='$(3)' $@

out/build/aarch64/hedrugal.o: out/build/aarch64/libhedrugal.a c/kit/heap.c
	$(call joined,aarch64,c/kit/heap.c,hed_*)

out/prebuilt/x86_64-linux/keyshow.o: out/build/x86_64/keyshow.o
	@mkdir -p $(@D)
	$(call joined,x86_64,$(kit)/c/libos_c.a $(kit)/c/liblibc_c.a,main)

out/prebuilt/aarch64-linux/keyshow.o: out/build/aarch64/keyshow.o c/kit/system.c c/kit/heap.c
	@mkdir -p $(@D)
	$(call joined,aarch64,c/kit/system.c c/kit/heap.c,main)

out/build/x86_64/hedrugal.o: out/build/hedrugal.o
	@mkdir -p $(@D)
	cp $< $@

out/prebuilt/%-linux/libhedrugal.a: out/build/%/hedrugal.o
	@mkdir -p $(@D)
	rm -f $@ && $*-linux-gnu-ar rcsD $@ $<

# The line by which rattle ends a log, but for the words on what it reads without checking it again. A missing log has none.
verdict = $$(sed -n 's/^\(logic=proved .* sum=[0-9a-f]*\).*/\1/p' $(1) 2> /dev/null | tail -n 1)
library_logs = $(if $(filter x86_64,$*),out/gate/library.log out/build/hedrugal.log,out/build/hedrugal-$*.log)

out/prebuilt/%-linux/PROVENANCE: out/prebuilt/%-linux/libhedrugal.a out/prebuilt/%-linux/keyshow.o
	@{ echo 'library: $(VERSION)'; \
	  echo "kit: $$(rt version)"; \
	  echo "proof of the crate hedrugal: $(call verdict,$(library_logs))"; \
	  echo "proof of the crate keyshow: $(call verdict,out/build/keyshow-$*.log)"; \
	  echo "joined by: $$($*-linux-gnu-gcc --version | head -n 1), $$($*-linux-gnu-ld --version | head -n 1)"; \
	  echo "sources: $$($(call print_sum,$*))"; \
	  for file in libhedrugal.a keyshow.o; do echo "sha256 $$file: $$(sha256sum < $(@D)/$$file | cut -d ' ' -f 1)"; done; \
	  echo 'to check: make prebuilt-check, with the kit, builds the same bytes again'; \
	  echo 'to refresh: make prebuilt, with the kit'; \
	} > $@
	@[ $$(grep -c ': logic=proved ' $@) = 2 ] || { echo 'make: out/build has no proof to name in $@' >&2; exit 1; }

# The shared library for Python. It names no C library, and finds its six functions in that of the process: so one file will do for glibc
# and for musl. PROCESSOR,ARCHIVE
python_library = $(1)-linux-gnu-gcc -shared -nostdlib -s -Wl,--version-script=c/hedrugal.map -Wl,--build-id=none \
	-Wl,-z,now,-z,relro,-z,noexecstack -o $@ -Wl,--whole-archive $(2) -Wl,--no-whole-archive

out/python/prebuilt/%-linux/libhedrugal.so: prebuilt/%-linux/libhedrugal.a c/hedrugal.map
	@$(check_prebuilt)
	@mkdir -p $(@D)
	$(call python_library,$*,$<)

# The part of the Python package that is compiled. It finds the C library and Python in the process in the same way, and the library's calls are
# told it. Of Python it knows the stable ABI alone: so one file will do for each version from 3.9 on.
out/python/prebuilt/%-linux/libhedrugal-python.so: python/compiled/reader.c python/compiled/python.h c/hedrugal.h
	@mkdir -p $(@D)
	$*-linux-gnu-gcc -std=c11 -Wall -Wextra -O2 -fPIC -fstack-protector-strong -fvisibility=hidden -Ic -shared -nostdlib -s \
		-Wl,--build-id=none -Wl,-z,now,-z,relro,-z,noexecstack -o $@ $<

out/python/prebuilt/%-linux/PROVENANCE: out/python/prebuilt/%-linux/libhedrugal.so out/python/prebuilt/%-linux/libhedrugal-python.so
	@{ echo 'library: $(VERSION)'; \
	  echo "linked by: $$($*-linux-gnu-ld --version | head -n 1)"; \
	  echo "of: prebuilt/$*-linux/libhedrugal.a, sha256 $$(sha256sum < prebuilt/$*-linux/libhedrugal.a | cut -d ' ' -f 1)"; \
	  echo "compiled by: $$($*-linux-gnu-gcc --version | head -n 1)"; \
	  for file in $(^F); do echo "sha256 $$file: $$(sha256sum < $(@D)/$$file | cut -d ' ' -f 1)"; done; \
	  echo 'to check: make python-prebuilt makes the same bytes again'; \
	} > $@

# The prebuilt library and keyshow for 64-bit ARM, as make builds them for the processor of this machine.
.PHONY: arm64-library
arm64 := out/aarch64
arm64-library: $(addprefix $(arm64)/lib/,libhedrugal.a libhedrugal.so.$(VERSION) hedrugal.h hedrugal.pc) $(arm64)/bin/keyshow

$(arm64)/lib/libhedrugal.a: prebuilt/aarch64-linux/libhedrugal.a
	@$(check_prebuilt)
	@mkdir -p $(@D)
	cp $< $@

$(arm64)/lib/libhedrugal.so.$(VERSION): $(arm64)/lib/libhedrugal.a c/hedrugal.map
	$(call shared_library,aarch64-linux-gnu-gcc)

$(arm64)/lib/hedrugal.h $(arm64)/lib/hedrugal.pc: $(arm64)/lib/%: c/%
	@mkdir -p $(@D)
	cp $< $@

$(arm64)/bin/keyshow: prebuilt/aarch64-linux/keyshow.o
	@$(check_prebuilt)
	@mkdir -p $(@D)
	aarch64-linux-gnu-gcc $(LDFLAGS) -o $@ $<

.PHONY: gate-arm64
gate-arm64: ## runs the commands of README.md, the tests that need no kit and packages on 64-bit ARM, by qemu
	@tools/needs.sh arm64 dist
	@tools/clone_test.sh arm64
