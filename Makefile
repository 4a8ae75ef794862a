# Proves, builds and tests. `make help` lists what there is to make. ./watch, ./sheet, ./convert and ./page call it, and so does ./test.
SHELL := /bin/bash
.SHELLFLAGS := -euo pipefail -c
.ONESHELL:
.DELETE_ON_ERROR:
MAKEFLAGS += --no-builtin-rules

# Where `make install` installs, below DESTDIR; DOCDIR is where pages go below PREFIX.
PREFIX ?= /usr/local
DOCDIR ?= share/doc/vcube
programs := watch sheet convert
# The archive in VCUBE_LIB_DIR and the programs in VCUBE_BIN_DIR are used as they are, where those are set.
ifdef VCUBE_LIB_DIR
archive := $(abspath $(VCUBE_LIB_DIR))/libvcube.a
else
archive := target/staticlib/libvcube.a
export VCUBE_LIB_DIR := $(CURDIR)/target/staticlib
endif
program_folder := $(or $(abspath $(VCUBE_BIN_DIR)),target/bin)
export CARGO_TARGET_DIR ?= $(CURDIR)/target/cargo

.PHONY: all help archive shared programs aarch64 wasm portable portable-board page plant kept-page install install-library install-programs \
    uninstall words layers FORCE
all: archive shared programs ## the archive, the shared library and the three programs
archive: $(archive) ## target/staticlib/libvcube.a, for C, C++ and Rust on x86-64
programs: $(programs:%=$(program_folder)/%) ## target/bin/watch, sheet and convert
aarch64: target/aarch64/libvcube.a ## target/aarch64/libvcube.a, the archive for Linux on 64-bit ARM
wasm: target/wasm/vcube.wasm ## target/wasm/vcube.wasm, a WebAssembly module with 32-bit memory
portable: target/portable/vcube_portable.c ## target/portable/, C for any C99 compiler: compile vcube_portable.c there
portable-board: target/portable-board/vcube_portable_board.c ## target/portable-board/, the same of a board's calls on its own line alone
page: target/vcube.html ## target/vcube.html, the page that shows a plant, live
plant: target/plant/hub ## target/plant/, the programs of a plant that runs: board, master, and hub, which is the cable

help:
	@sed -nE 's/^([a-z0-9-]+):.* ## (.*)/make \1: \2/p' Makefile

# --- What rt proves and builds. crates.txt says which crates there are, and what each uses.

-include target/crates.mk
target/crates.mk: crates.txt
	@mkdir -p target
	sed -nE 's/#.*//; s/^([a-z0-9_]+)( *staticlib)?[^:]*:(.*)/crates += \1\nkind_\1 :=\2\nuses_\1 :=\3/p' $< >$@

# What a check of the crates reads. A folder is newer where a file came or went.
sources := $(shell find $(wildcard crates/*/src crates/*/specs crates/*/proofs))
with_below = $(sort $(foreach it,$(filter $(crates),$1),$(it) $(call with_below,$(uses_$(it)))))
# What is made of a crate: a program, a static library, or a note that it is proved.
is_program = $(wildcard crates/$1/src/main.rt)
made_of = $(if $(is_program),target/bin/$1,$(if $(kind_$1),target/staticlib/lib$1.a,target/proved/$1))

# The crates that the goals need, each behind those that it uses. rt works on one at a time in a repository, so they wait for each other.
asked := $(or $(MAKECMDGOALS),all)
of_programs := programs install-programs test-programs $(programs:%=target/bin/%)
with_programs := all install before-rt-ci test-package test-mutants test-plant test-reliability $(of_programs)
roots := $(if $(filter-out $(of_programs),$(asked)),vcube) \
    $(if $(filter $(with_programs),$(filter-out target/bin/%,$(asked))),$(programs)) $(notdir $(filter target/bin/%,$(asked)))
needed := $(call with_below,$(roots))
needed := $(filter $(needed),$(crates))

define rule_of_crate
$(call made_of,$1): $(filter crates/$1/%,$(sources)) $(foreach it,$(filter $(crates),$(uses_$1)),$(call made_of,$(it))) target/toolchain | $(before)
	@$$(call prove,$1,$(words $(begun) $1) of $(words $(needed)),$(if $(is_program),rt run -- --help,rt lib))
begun += $1
before := $(call made_of,$1)
endef

# CRATE, WHICH OF HOW MANY, COMMAND. What cannot be written to standard error does not count.
define prove
say() { echo "$$1" >&2 || true; }
say 'proving $1 ($2) ..'
mkdir -p $(@D) target/log
if ! (cd crates/$1 && $3) </dev/null >target/log/$1.log 2>&1; then
    cat target/log/$1.log >&2 || true
    say '$1 is not proved'
    exit 1
fi
$(if $(filter target/proved/%,$@),touch $@,cp crates/$1/out/$(@F) $@)
say "$1 proved ($$SECONDS s)"
endef

begun :=
before :=
$(foreach it,$(needed),$(eval $(call rule_of_crate,$(it))))

# The toolchain's version, written where it is another.
target/toolchain: FORCE
	@command -v rt >/dev/null || { echo 'rt, the command of the Rattle toolchain, is not found' >&2; exit 1; }
	mkdir -p target
	version=$$(rt version)
	[[ $$version == "$$(cat $@ 2>/dev/null)" ]] || echo "$$version" >$@

# --- The library for other processors and browsers.

# rt lib in a copy of the crates, with another line for vcube: what a check kept in this folder is not proved again there. The copy stands outside
# the repository, since the gate takes no second crates.txt below the first.
define in_copy
echo 'building $@ ..' >&2
copy=$$(mktemp -d)
trap 'rm -rf "$$copy"' EXIT
mkdir -p $(@D) target/log
tar -c --exclude=out crates | tar -x -C "$$copy"
sed 's/^vcube staticlib:/$1:/' crates.txt >"$$copy/crates.txt"
if ! (cd "$$copy/crates/vcube" && rt lib $2) </dev/null >target/log/$(@F).log 2>&1; then
    cat target/log/$(@F).log >&2
    exit 1
fi
endef

# COMMAND, PACKAGE of Debian's
needs = command -v $1 >/dev/null || { echo '$1 is not found: it is in Debian'\''s package $2' >&2; exit 1; }

target/aarch64/libvcube.a: target/staticlib/libvcube.a
	@$(call in_copy,vcube staticlib,--target aarch64-unknown-linux-gnu)
	cp "$$copy/crates/vcube/out/libvcube.a" $@

wasm_features := --enable-bulk-memory --enable-sign-ext --enable-mutable-globals

# rt links a module with 64-bit memory. wasm-opt makes 32-bit memory of it, which all browsers know. The stack stands below the address 65,536.
target/wasm/vcube.wasm: target/staticlib/libvcube.a
	@$(call needs,wasm-opt,binaryen)
	$(call in_copy,vcube wasm64 stack=65536)
	wasm-opt --enable-memory64 $(wasm_features) --memory64-lowering -O2 \
	    "$$copy/crates/vcube/out/vcube.wasm" -o $@

# MODULE: C of a module, which vcube_portable_module.h includes. wasm2c's ways to the memory get other names, as that header has its own, and are
# handed the two parts of an address apart. The constants go up to the heap: the module leaves out the zeros at their end. What the module exports
# only that file calls: a compiler that knows so leaves out halves of numbers that are always 0.
define module_in_c
$(call needs,wasm2c,wabt)
wasm2c --no-debug-names -n vcube_module $1 -o $(@D)/vcube_module.c
heap=$$(sed -nE 's/^  instance->w2c___heap_base = ([0-9]+)ull;$$/\1/p' $(@D)/vcube_module.c)
sed -Ei "s/^(#define|static inline void) (LOAD_DATA|DEFINE_LOAD|DEFINE_STORE|memory_fill|memory_copy)\(/\1 wasm2c_\2(/
    s/^static const u8 data_segment_data_w2c_d0\[\]/static const u8 vcube_constants[$$((heap - 65536))]/
    s/data_segment_data_w2c_d0/vcube_constants/
    s/((load|store)[0-9a-z_]*)\(&instance->w2c_[A-Za-z0-9]+, \(u64\)\((w2c_[a-z0-9]+)\)( \+ )?/\1(\3, 0\4/" $(@D)/vcube_module.c
sed -Ei 's/^[a-z0-9_]+\*? Z_vcube_module/static &/' $(@D)/vcube_module.[ch]
awk -v heap="$$heap" -f bindings/portable/constants.awk $(@D)/vcube_module.c $(@D)/vcube_module.c >$(@D)/marked.c
mv $(@D)/marked.c $(@D)/vcube_module.c
cp $(filter %.h,$^) $(@F:%=bindings/portable/%) $(@D)/
endef

portable_parts := include/vcube.h $(wildcard bindings/portable/*.h bindings/portable/*.awk /usr/include/wasm-rt.h)
target/portable/vcube_portable.c: target/wasm/vcube.wasm bindings/portable/vcube_portable.c $(portable_parts) include/vcube_plant.h
	@echo 'building $@ ..' >&2
	rm -rf $(@D)
	mkdir -p $(@D)
	$(call module_in_c,$<)

# Of the module what a board's calls reach. They read no constants, and those go: where one is read after all, its address is found.
target/portable-board/vcube_portable_board.c: target/wasm/vcube.wasm bindings/portable/vcube_portable_board.c $(portable_parts)
	@echo 'building $@ ..' >&2
	$(call needs,wasm-metadce,binaryen)
	rm -rf $(@D)
	mkdir -p $(@D)
	made=$$(mktemp -d)
	trap 'rm -rf "$$made"' EXIT
	sed -nE 's/.*CALL\((vcube_board_[a-z_]+),.*/{ "name": "\1", "root": true, "export": "\1" }/p' bindings/portable/vcube_portable_board.h |
	    paste -sd , | sed 's/^/[/; s/$$/]/' >"$$made/graph"
	wasm-metadce $(wasm_features) $< --graph-file="$$made/graph" -o "$$made/board.wasm" >/dev/null
	wasm-dis "$$made/board.wasm" | sed '/^ (data /d' >"$$made/board.wat"
	heap=$$(wasm-dis $< | sed -nE 's/^ \(global \$$global\$$[0-9]+ i64 \(i64\.const ([0-9]+)\)\)$$/\1/p')
	[[ $$heap =~ ^[0-9]+$$ ]] || { echo 'where the constants of the module end is not found' >&2; exit 1; }
	if grep -v '^ (global' "$$made/board.wat" | grep -oE '(const |offset=)[0-9]+' |
	    awk -F '[ =]' -v end="$$heap" '$$2 >= 65536 && $$2 < end { print; found = 1 } END { exit !found }' >&2; then
	    echo 'a call of a board reads constants of the module' >&2
	    exit 1
	fi
	wasm-as $(wasm_features) "$$made/board.wat" -o "$$made/board.wasm"
	$(call module_in_c,"$$made/board.wasm")

target/vcube.html: target/wasm/vcube.wasm $(wildcard browser/* samples/*)
	@echo 'building $@ ..' >&2
	browser/make-page $< $@

kept-page: target/vcube.html ## docs/vcube.html, the page as it is kept: it is just what ./page makes
	@cp $< docs/vcube.html

# --- A plant that runs, on this computer.

target/plant/hub: $(archive) include/vcube.h $(wildcard bindings/node/*.[ch] bindings/node/host/*)
	@echo 'building target/plant ..' >&2
	bindings/node/host/build $(@D) $(archive)

# --- Installing.

# version, to, the rule of the shared library, and what of the library is installed.
include packaging/library.mk

shared: $(shared) ## target/shared/, the archive as a shared library

install: install-library install-programs ## library, programs, manual pages and the page, below DESTDIR and PREFIX (/usr/local)

install-library: archive shared ## of these the headers, archive, shared library, what pkg-config and CMake read, and the manual pages of the calls
	@$(install_library)
	echo "vcube $(version) is installed below $(to)"

install-programs: programs ## of these vcube-watch, vcube-sheet and vcube-convert, their manual pages, vcube(7) and vcube.html
	@for name in $(programs); do
	    install -D -m 755 "$(program_folder)/$$name" "$(to)/bin/vcube-$$name"
	    install -D -m 644 man/vcube-$$name.1 "$(to)/share/man/man1/vcube-$$name.1"
	done
	$(install_rules)
	install -D -m 644 docs/vcube.html "$(to)/$(DOCDIR)/vcube.html"
	echo "vcube-watch, vcube-sheet and vcube-convert are installed below $(to)"

uninstall: ## removes what these installed
	@$(uninstall_library)
	rm -f $(foreach name,$(programs),"$(to)/bin/vcube-$(name)" "$(to)/share/man/man1/vcube-$(name).1") "$(to)/$(DOCDIR)/vcube.html"
	if [[ -d "$(to)/$(DOCDIR)" ]]; then rmdir --ignore-fail-on-non-empty "$(to)/$(DOCDIR)"; fi
	echo "vcube is not installed below $(to)"

# --- What is made and kept.

words: ## the enums of header and binding, and the table of refusals in RULES, from the library's source
	@tests/words --write
	man/check --write

layers: ## docs/layers.svg, from crates.txt
	@docs/draw-layers

# --- The tests, in steps. ./test runs them, and says what each is; one by itself is make test-words.

steps := shellcheck layers pages words format rust-format archive mutants compare portable programs page c plant rust-tests linked-tests clippy \
    package kept-page reliability rt-ci
.PHONY: list-steps before-rt-ci test $(steps:%=test-%)

test: ## all tests: ./test, which also runs some of them
	@./test

list-steps:
	@printf '%s\n' $(steps)

before-rt-ci: $(patsubst %,test-%,$(filter-out rt-ci,$(steps)))

# COMMANDS. What they call is told where the programs are. A make that they call is none of this one's.
define step
echo '== $(@:test-%=%) ..'
unset MAKEFLAGS MFLAGS MAKELEVEL
export VCUBE_WATCH=$(CURDIR)/target/bin/watch VCUBE_SHEET=$(CURDIR)/target/bin/sheet VCUBE_CONVERT=$(CURDIR)/target/bin/convert
if { $1; }; then echo "== $(@:test-%=%): $$SECONDS s"; else echo "== $(@:test-%=%): FAILED, $$SECONDS s"; exit 1; fi
endef
# COMMAND, COMMANDS: if there is that of cargo's
of_cargo = $(call step,if cargo $1 --version >/dev/null 2>&1; then $2; else echo 'skipped: this cargo has no $1'; fi)
# The Rust packages that link the archive.
linking := vcube vcube-sys replay-typed bench

test-shellcheck:
	@$(call step,! tests/packages shellcheck || git grep --untracked -lE '^#!/.*sh$$|^# shellcheck shell=' | xargs shellcheck)
test-layers:
	@$(call step,docs/draw-layers --check)
test-pages:
	@$(call step,tests/pages && tests/edits --self-test)
test-words:
	@$(call step,tests/words && man/check)
test-format:
	@$(call step,git ls-files -z 'crates/*.rt' 'crates/*.antt' | xargs -0 rattle fmt --check)
test-rust-format:
	@$(call of_cargo,fmt,cargo fmt --all --check)
test-archive: archive
	@$(call step,echo $(archive))
test-mutants: programs
	@$(call step,tests/mutants/run --drawn 12)
test-compare: archive
	@$(call step,tests/compare)
# Without these it says what it skips.
test-portable: $(if $(and $(shell command -v wasm-opt),$(shell command -v wasm2c)),portable aarch64)
	@$(call step,tests/portable)
test-programs: programs
	@$(call step,tests/programs/run)
test-page: page
	@$(call step,tests/page)
test-c: archive
	@$(call step,bindings/c/run)
test-plant: archive plant target/bin/watch
	@$(call step,bindings/node/run && tests/plant/run)
test-package: archive shared programs
	@$(call step,VCUBE_BIN_DIR=$(abspath $(program_folder)) tests/package)
test-rust-tests:
	@$(call step,cargo test --workspace $(linking:%=--exclude=%) --offline --locked --quiet)
test-linked-tests: archive
	@$(call step,cargo test $(linking:%=--package=%) --offline --locked --quiet &&
	    cargo check --package=vcube --lib --no-default-features --offline --locked --quiet)
test-clippy: archive
	@$(call of_cargo,clippy,cargo clippy --workspace --all-targets --offline --locked --quiet -- -D warnings)
test-reliability: archive programs $(if $(and $(shell command -v wasm-opt),$(shell command -v wasm2c)),portable)
	@$(call step,tests/reliability/run)
test-kept-page: page
	@$(call step,cmp target/vcube.html docs/vcube.html || { echo 'docs/vcube.html is not what ./page makes: make kept-page makes it anew'; false; })
# Its last line is the gate's, and stays the last.
test-rt-ci:
	@rt ci 2>&1 | tee target/rt-ci.log
