# Builds, checks and tests lldpa with the kit. `make help` lists the targets; -j N runs N recipes at once.
SHELL = /bin/bash
.SHELLFLAGS = -eu -o pipefail -c
MAKEFLAGS += --output-sync=target --no-builtin-rules
export PYTHONDONTWRITEBYTECODE = 1
# Skips what needs a tool that is not here, and says so; with CI it fails.
with = $(CURDIR)/tools/gate/with.sh
PYTESTS = python3-pytest{,-xdist,-timeout,-rerunfailures}
PYTEST = $(with) $(PYTESTS) -- pytest -q $(if $(CI),--whole)
N ?= $(shell nproc)

program = crates/lldpa/out/lldpa
library = crates/lldpa_c/out/lib/liblldpa.a
live = rust/live/out/lldpa-live
proved = $(shell find crates -name '*.rt' -o -name '*.antt') crates.txt
rust = $(shell find rust/*/src -type f)
served = $(if $(shell command -v cargo),$(live)) # for tests, which can do without
pages = man/*.[1-8] audit/*.1 crates/lldpa_c/include/*.3

all: $(program) $(library) $(live)                ## proves and builds everything
# In a release, which has no kit, `check` runs all tests that need none.
checks = $(if $(wildcard assembly),examples model c-library live audit,pages generated types named rights)
check: $(checks)                                  ## what needs no program: after a change of anything
crates: $(program) examples model instructions    ## after a change of crates or examples
	cd crates/lldp_tests && rt try --test --seconds 600
library: c-library arm64                          ## after a change of the library
live: rust-live rust-people completions services  ## after a change of rust, python, bin, share or man

front = $(wildcard crates/lldpa_c/front/* crates/lldpa_c/include/*) tools/library/library.sh
ifeq ($(wildcard assembly),)
$(program): $(proved)
	cd crates/lldpa && rt run -- --version
	touch $@
$(library): $(proved) $(front)
	tools/library/library.sh
	touch $@
else # a release, whose proved part is assembly/ARCH: no kit
$(program) $(library) &: $(wildcard assembly/*/*.s) $(front) tools/release/platform.c
	tools/release/build.sh
	mkdir -p $(dir $(program)) $(dir $(library))
	built=crates/lldpa/out/$$(. tools/library/arch.sh && echo $$arch); \
	    cp -R $$built/. crates/lldpa/out; rm -rf $(dir $(library)); mv crates/lldpa/out/lib $(dir $(library))
endif
$(live): $(library) $(rust)
	tools/release/live.sh
	tools/release/live.sh --dynamic
	touch $@

# Cheap checks
pages:
	$(PYTEST) tools/gate/test_pages.py
	$(with) mandoc -- mandoc -T lint -W warning $(pages)
	$(with) groff -- bash -ec 'for page; do [ -z "$$(groff -mandoc -ww -z $$page 2>&1)" ]; done' groff $(pages)
	$(with) rsvg-convert -- bash -ec 'for svg in docs/*.svg; do rsvg-convert $$svg > /dev/null; done'
# Compares what scripts write with what stands here; `make generated W=cp` writes it. (A file that is only written
# anew would be newer than the program, and all would be proved again.)
W = cmp
generated:
	mkdir -p out
	made() { python3 "$${@:2}" out/made && $(W) out/made $$1; }; \
	    made crates/lldpa/proofs/Transcripts.antt tools/write/transcripts.py; \
	    made crates/lldp_pdu/proofs/Vectors/Rows.antt tools/write/vectors.py; \
	    made docs/bench.svg tools/bench/bench.py --svg
	$(with) bindgen -- bash -ec 'tools/library/bindings.sh > out/made; $(W) out/made rust/lldpa/src/sys.rs'
types:
	$(with) mypy -- mypy --strict --cache-dir out/types python/lldpa audit/lldpa_audit
	$(with) shellcheck -- shellcheck -S error $$(grep -l '^#!' $$(git ls-files '*.sh'))
named:
	$(PYTEST) tools/gate/test_named.py
rights:
	$(PYTEST) tools/gate/test_unit.py tools/gate/test_memory.py
	echo 'Handles allowed: Net.' | cmp - HANDLES

# The program
examples: $(program)
	$(PYTEST) -n $(N) tools/gate/test_examples.py tools/gate/test_words.py tools/gate/test_refused_memory.py
model: $(program)
	$(PYTEST) -n $(N) tools/model/test_frames.py tools/model/test_listen.py
	python3 tools/model/fuzz.py --program $(program) --seed 1 --traces 4000
	python3 tools/model/fuzz.py --program $(program) --seconds 20
instructions: $(program) $(library)
	$(with) valgrind -- python3 tools/bench/bench_counts.py --program $(program)

# The library, the service and the Python programs
c-library: $(library)
	$(PYTEST) -n 3 tools/library/test_library.py
arm64: $(library)
	$(PYTEST) -n $(N) --dist loadfile -k "not packages" tools/library/test_arm64.py
cargo = unset MAKEFLAGS; cd rust/$(@:rust-%=%) && export CARGO_TARGET_DIR=out/target LLDPA_LIB_DIR=$(abspath $(dir $(library))) && \
	$(with) cargo -- ../../tools/release/vendor.sh && $(with) rustfmt -- cargo fmt --check && \
	$(with) rust-clippy -- cargo clippy --locked --all-targets --quiet -- -D warnings && \
	$(with) cargo -- cargo test --locked
rust-live: $(served)
	$(cargo)
rust-people:
	$(cargo)
	cd rust/people && CARGO_TARGET_DIR=out/target $(with) cargo -- bash -ec 'cargo build --locked --release --example people; \
	    cp out/target/release/examples/people out/people'
completions: $(program) $(served)
	$(PYTEST) -n $(N) tools/gate/test_help.py tools/gate/test_help_of_scripts.py
services: $(program) $(served) rust-people
	$(PYTEST) -n $$(($(N) * 6)) --dist loadfile -m "not alone" rust python tools/release audit/tests/test_asking.py \
	    audit/tests/test_audit_command.py
audit:                                            ## after a change of audit or python/lldpa: needs Python alone
	$(with) $(PYTESTS) -- $(MAKE) -C audit house N=$$(($(N) * 2))
alone: $(program) $(served)                       ## what needs the machine for itself
	$(PYTEST) -m alone rust

# The proofs, from nothing, of what is committed
proofs:
	rm -rf out/ci && git clone -q . out/ci
	cd out/ci && nice -n 10 rt ci | tee ../ci.log
	test -s out/ci.log && ! grep 'BAD EDIT' out/ci.log
	grep -q "\`$$(rt version | sed -n 's/.*\(logic [0-9a-f]*\)$$/\1/p')\`" README.md
wrong-bodies: $(program) $(library)               ## the prover refuses each wrong body
	nice -n 10 $(PYTEST) -n 2 --dist loadgroup tools/gate/test_wrong_bodies.py tools/gate/test_axioms.py

package: $(program) $(served)
	$(with) cargo binutils dpkg-dev debhelper dh-python lintian pkgconf unshare python3-pytest -- tools/gate/check-package.sh $(program)
release-check: package arm64                      ## before a release, and after a change of what it is made of
	$(PYTEST) -k packages tools/library/test_arm64.py
	$(with) root /usr/bin/cargo xz-utils unshare ip locales dpkg-dev debhelper dh-python -- tools/gate/check-dist.sh
	$(with) root debootstrap debian-mirror unshare ip -- env ARCHIVE=$$(ls out/lldpa-*.tar.xz 2> /dev/null || true) \
	    tools/gate/try-debian.sh --build trixie

# `rt ci` runs the tests of lldp_tests. `also` can name a target that runs beside these.
beside: check proofs $(also) wrong-bodies examples model instructions library live audit
gate:                                             ## everything that a merge needs
	+$(MAKE) -j$(N) -k beside
	cmp $(program) out/ci/$(program)
	+$(MAKE) alone
prefix = /usr/local
export DESTDIR
install: all                                      ## copies to $(DESTDIR)$(prefix) what install.sh names
	tools/release/install.sh $(prefix)
	tools/release/install.sh --library $(prefix)
uninstall:                                        ## removes it, except a changed configuration and records
	tools/release/install.sh --uninstall $(prefix)
	tools/release/install.sh --uninstall --library $(prefix)
clean:
	rm -rf crates/*/out rust/*/out out
help:
	@sed -n 's/^\([a-z-]*\):.*## /    make \1\t/p' Makefile | expand -t 28

.PHONY: all check crates library live pages generated types named rights examples model instructions c-library arm64 \
	rust-live rust-people completions services audit alone proofs wrong-bodies package release-check install uninstall clean beside gate help
