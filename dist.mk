# `make dist`: what a machine without the kit installs; docs/packages.md says how each file is used. The same sources, library and programs
# make the same bytes, in any folder. All dates are SOURCE_DATE_EPOCH, or that of the newest entry of debian/changelog.
DIST ?= out/dist
# The address of the project, in the wheels and the crate: none yet.
URL ?=

.PHONY: dist dist-needs dist-processor dist-files dist-source dist-tree dist-tarball dist-wheel dist-debs
dist: dist-needs all arm64-library ## makes the Debian packages, tarballs, Python wheels and their checksums, for both processors, in the folder DIST
	@umask 022; work=$$(mktemp -d); trap 'rm -rf "$$work"' EXIT; mkdir "$$work"/{x86_64,aarch64,made}; \
	processor() { $(MAKE) --silent --no-print-directory dist-processor dist_work="$$work/$$1" dist_made="$$work/made" "$${@:2}"; }; \
	processor x86_64 dist_cc='$(CC)' dist_library='$(lib)' dist_keyshow='$(keyshow)'; \
	processor aarch64 dist_cc=aarch64-linux-gnu-gcc dist_library=$(arm64)/lib dist_keyshow=$(arm64)/bin/keyshow; \
	$(MAKE) --silent --no-print-directory dist-files dist_made="$$work/made"

dist-needs:
	@tools/needs.sh dist

# Files of another name stay in DIST, and those of an earlier version go.
dist-files:
	cd $(dist_made) && sha256sum -- * > ../SHA256SUMS
	mkdir -p '$(DIST)'
	rm -f '$(DIST)'/{libhedrugal0,libhedrugal-dev,hedrugal}_*_{amd64,arm64}.deb \
		'$(DIST)'/hedrugal-*-{{x86_64,aarch64}-linux.tar.gz,py3-none-manylinux_*.whl}
	install -m 644 $(dist_made)/* $(dist_made)/../SHA256SUMS '$(DIST)/'
	echo "make: wrote $$(ls $(dist_made) | wc -l) packages and SHA256SUMS to $(DIST)"

ifdef dist_work
export SOURCE_DATE_EPOCH := $(or $(SOURCE_DATE_EPOCH),$(shell dpkg-parsechangelog -S Timestamp))
processor := $(notdir $(dist_work))
source := $(dist_work)/source
tarball := hedrugal-$(VERSION)-$(processor)-linux
tree := $(dist_work)/$(tarball)

dist-processor: dist-tarball dist-wheel dist-debs

# A copy without what was built here, which everyone may read.
dist-source:
	mkdir $(source)
	tar -c --exclude={.git,out,target,__pycache__,rust/Cargo.lock,rust/crossterm/Cargo.lock} --mode=u=rwX,go=rX . | tar -C $(source) -xm
	$(PYTHON) tools/package/sbom.py > $(source)/python/hedrugal.spdx.json

# What the tarball has. The library and the programs are stripped of what they don't need to be linked or run.
dist-tree: dist-source
	mkdir $(source)/built
	cp '$(dist_library)'/{libhedrugal.a,libhedrugal.so.$(VERSION)} $(copied:%=c/%) '$(dist_keyshow)' $(source)/built/
	$(MAKE) --silent -C $(source) install DESTDIR=$(tree) PREFIX=/ LIBDIR=lib LIBRARY=built KEYSHOW=built/keyshow CC='$(dist_cc)' \
		$(call logged,install)
	$(processor)-linux-gnu-strip -D --strip-debug --remove-section=.comment $(tree)/lib/libhedrugal.a
	$(processor)-linux-gnu-strip --strip-unneeded --remove-section=.comment --remove-section=.note $(tree)/lib/libhedrugal.so.$(VERSION) $(tree)/bin/*
	mkdir $(tree)/c $(tree)/docs $(tree)/python
	cd $(source) && cp $$(cat debian/libhedrugal-dev.examples) $(tree)/c/ && cp $$(cat debian/libhedrugal-dev.docs) $(tree)/docs/ && \
		cp -r python/hedrugal python/examples $(tree)/python/ && cp -r rust LICENSE THIRD-PARTY python/hedrugal.spdx.json $(tree)/
	ln -s ../../lib/libhedrugal.so $(tree)/python/hedrugal/
	install -m 644 $(source)/python/prebuilt/$(processor)-linux/libhedrugal-python.so $(tree)/python/hedrugal/
	sed 's/@VERSION@/$(VERSION)/; s/@PROCESSOR@/$(if $(filter aarch64,$(processor)),64-bit ARM,x86-64)/' tools/package/README > $(tree)/README

dist-tarball: dist-tree
	echo 'make: makes the tarball for $(processor)'
	tar -C $(dist_work) --sort=name --format=gnu --owner=root:0 --group=root:0 --mtime=@$(SOURCE_DATE_EPOCH) -c $(tarball) | \
		gzip -9n > $(dist_made)/$(tarball).tar.gz

$(dist_work)/python/libhedrugal.so: $(dist_library)/libhedrugal.a
	@mkdir -p $(@D)
	$(call python_library,$(processor),$<)

dist-wheel: dist-source $(dist_work)/python/libhedrugal.so
	echo 'make: makes the wheel for $(processor)'
	HEDRUGAL_URL='$(URL)' HEDRUGAL_LIBRARY=$(dist_work)/python $(PYTHON) $(source)/python/backend.py $(dist_made) $(call logged,wheel)

# (The variables of this make aren't those of the one in the copy.)
dist-debs: dist-tree
	echo 'make: makes the Debian packages for $(processor)'
	cp $(tree)/lib/libhedrugal.* $(tree)/bin/keyshow $(source)/built/
	cd $(source) && env -u MAKEFLAGS -u MFLAGS -u MAKELEVEL LIBRARY=built KEYSHOW=built/keyshow CC='$(dist_cc)' dpkg-buildpackage \
		--host-arch=$(if $(filter aarch64,$(processor)),arm64,amd64) --build=binary --no-sign $(call logged,debs)
	mv $(dist_work)/*.deb $(dist_made)/
endif

# The crate as a folder: the Rust package with the prebuilt libraries in it. Its README is docs/rust.md, whose links lead to other documents.
.PHONY: crate
CRATE ?= out/crate
crate_folder = $(CRATE)/hedrugal-$(VERSION)
crate: ## assembles the Rust package with the prebuilt libraries, for cargo package, in the folder CRATE
	@rm -rf '$(crate_folder)' && mkdir -p '$(crate_folder)'
	@sed '/^publish = false$$/d; /^# What the crate of/,$$d$(if $(URL),; s|^license.*|&\nrepository = "$(URL)"|)' rust/Cargo.toml > '$(crate_folder)/Cargo.toml'
	@sed -zE 's/<!-- [^>]*-->\n//g; s/\[([^]]*)\]\([^)]*\)/\1/g' docs/rust.md > '$(crate_folder)/README.md'
	@cp -r rust/build.rs rust/src LICENSE THIRD-PARTY '$(crate_folder)/'
	@for it in prebuilt/*-linux; do install -D -m 644 -t "$(crate_folder)/$$it" $$it/{libhedrugal.a,PROVENANCE}; done
	@echo 'make: assembled $(crate_folder),' \
		"$$(tar -c -C '$(CRATE)' hedrugal-$(VERSION) | gzip | wc -c | numfmt --to=iec) packed, of the 10M that crates.io takes"
