# `make` says what there is. A target's words for that stand behind its `##`, the groups behind `##@`; a comment above says the rest.
.DEFAULT_GOAL = help
.PHONY: help run replay library install uninstall clean test rig beside second x11rb fuzz \
    bench bench-rooms bench-savepoints bench-beside bench-counts published record house
# rt makes its own checks side by side, and of two in one crate the second waits.
.NOTPARALLEL:

ARCHIVE = target/staticlib/libxiengmado.a
PROGRAMS = target/bin/packets target/bin/replay
SOURCES = crates.txt $(wildcard crates/*/src/*.rt crates/*/specs/*.antt)

# The folder of the published Rust's files, with connection/mod.rs in it: for bench, beside and record.
RUST ?= $(XIENGMADO_RUST)

help:
	@awk '/^##@/ { printf "%s%s:\n", gap, substr($$0, 5); gap = "\n" } \
	    /^[a-z0-9-]+:.* ## / { name = $$1; sub(":", "", name); sub(/.* ## /, ""); printf "  make %-17s %s\n", name, $$0 }' $(MAKEFILE_LIST)

##@ Use

run: target/bin/packets ## prove the program `packets` and run it on bytes that an X server sent
	target/bin/packets < tests/streams/xeyes.bin

replay: target/bin/replay ## prove and link the program `replay`: target/bin/replay

# rt proves, links and runs a program; given no input these end at once. One that is proved already it leaves as it is: the copy's
# new time tells make so.
$(PROGRAMS): target/bin/%: $(SOURCES)
	cd crates/$* && rt run < /dev/null > /dev/null
	install -D crates/$*/out/$* $@

library: $(ARCHIVE) ## prove the static library, which C and Rust link: target/staticlib/libxiengmado.a

$(ARCHIVE): $(SOURCES)
	cd crates/xiengmado_c && rt lib
	install -D -m 644 crates/xiengmado_c/out/libxiengmado_c.a $@

# DESTDIR is put in front of every place that is written, and into no file.
PREFIX = /usr/local
prefix = $(abspath $(PREFIX))
place = $(DESTDIR)$(prefix)
VERSION = $(shell sed -n 's/^version = "\(.*\)"$$/\1/p' rust/Cargo.toml)

install: $(ARCHIVE) $(PROGRAMS) ## header, library, xiengmado.pc and programs to PREFIX=/usr/local
	mkdir -p $(place)/include $(place)/lib/pkgconfig $(place)/bin
	install -m 644 include/xiengmado.h $(place)/include
	install -m 644 $(ARCHIVE) $(place)/lib
	install $(PROGRAMS) $(place)/bin
	printf '%s\n' 'prefix=$(prefix)' '' 'Name: xiengmado' 'Description: An X11 client engine whose every function is proved' \
	    'Version: $(VERSION)' 'Cflags: -I$${prefix}/include' 'Libs: -L$${prefix}/lib -lxiengmado' > $(place)/lib/pkgconfig/xiengmado.pc

uninstall: ## takes away what install wrote to PREFIX
	rm -f $(addprefix $(place)/,include/xiengmado.h lib/libxiengmado.a lib/pkgconfig/xiengmado.pc $(PROGRAMS:target/%=%))

clean: ## takes away everything that was built
	rm -rf target rust/target rust/*/target crates/*/out

##@ Check

# The last line is 'N passed, 0 failed'.
test: ## prove everything, try what must fail, run every program
	tests/run

# Stops at once where those files are not there.
published:
	@test -f "$(RUST)/connection/mod.rs" || { echo "RUST names no folder with connection/mod.rs"; exit 1; }

beside: published $(ARCHIVE) ## the engine beside the published Rust, call by call: RUST=folder ARGS='SEED RUNS' or ARGS=long
	cd rust && XIENGMADO_RUST="$(abspath $(RUST))" cargo run --offline --quiet --profile beside -p beside -- $(ARGS)

# The readings that the published files leave out, beside those of x11rb 0.8.1 as Debian's librust-x11rb-dev has it.
DEBIAN = --config 'source.crates-io.replace-with="debian"' --config 'source.debian.directory="/usr/share/cargo/registry"'

second: ARGS = 1 1000000
second: $(ARCHIVE) ## errors, XC-MISC and setups beside Debian's librust-x11rb-dev: ARGS='SEED COUNT'
	cd rust/second && cargo $(DEBIAN) run --offline --quiet --release -- $(ARGS)

# tests/rig says what else ARGS can be; TIME is for how many seconds a client runs.
rig: $(ARCHIVE) target/bin/replay ## a night of the soak rig: records clients under Xvfb, replays, saves and restores: ARGS='xeyes xclock'
	tests/rig $(ARGS)

x11rb: $(ARCHIVE) ## the examples of x11rb 0.8.1 over this engine, on an Xvfb; installs Debian's librust-x11rb-dev and xvfb
	tests/x11rb

# libFuzzer over the exports: the calls and checks of the fuzz test with its bytes as the choices. What it finds interesting
# is kept in target/fuzz/corpus.
FUZZ = $(filter-out %/main.c %/broken.c,$(wildcard tests/fuzz/*.c))
SECONDS = 60

fuzz: $(ARCHIVE) ## libFuzzer (clang) over the library's calls: SECONDS=60
	mkdir -p target/fuzz/corpus
	clang -std=c11 -O2 -g -Wall -Wextra -Werror -DLIBFUZZER -fsanitize=fuzzer,address,undefined -Iinclude $(FUZZ) $(ARCHIVE) -o target/fuzz/libfuzzer
	target/fuzz/libfuzzer -max_len=4096 -max_total_time=$(SECONDS) -print_final_stats=1 target/fuzz/corpus

##@ Measure, no part of the tests

# Prints the tables of docs/BENCH.md; the plot goes to docs/bench.svg.
bench: bench-rooms bench-savepoints ## bench-rooms, bench-savepoints and, with RUST=folder, bench-beside
ifneq ($(strip $(RUST)),)
bench: bench-beside
else
	@echo "bench: the rows beside the Rust were skipped: RUST names no folder with its files"
endif

# Each function starts at a cache line, so that what stands before it in the program changes no figure.
bench-rooms: ## the moves of the rooms beside plain C
	cd crates/bench && rt lib
	mkdir -p target/bench
	objcopy --set-section-alignment '.text*=64' crates/bench/out/libbench.a target/bench/libbench.a
	gcc -O3 -std=c11 -Wall -Wextra -falign-functions=64 -o target/bench/rooms bench/rooms.c target/bench/libbench.a
	target/bench/rooms

bench-savepoints: $(ARCHIVE) ## savepoints beside a copy of the same bytes
	cd rust && cargo build --offline --quiet --release -p bench --bin savepoints
	rust/target/release/savepoints

bench-beside: published $(ARCHIVE) target/bin/packets ## the library beside the published Rust: RUST=folder ARGS='part of the names of rows'
	cd rust && XIENGMADO_RUST="$(abspath $(RUST))" cargo build --offline --quiet --release -p bench
	rust/target/release/bench docs/bench.svg $(ARGS)
	rust/target/release/memory

# They do not depend on what else the machine does.
bench-counts: ## instructions instead of times (valgrind), after bench-beside
	bench/instructions $(ARGS)

##@ Write again

record: published $(ARCHIVE) ## what the published Rust answers to the runs of tests/recorded: RUST=folder
	cd rust && XIENGMADO_RUST="$(abspath $(RUST))" cargo run --offline --quiet --profile beside -p beside -- record ../tests/recorded

house: ## the picture of docs/ARCHITECTURE.md, from crates.txt
	python3 docs/house.py
