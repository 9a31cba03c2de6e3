# make test is the gate. It takes rt, cargo, make, and gcc with its libasan, and no network.
SHELL := /bin/bash
.SHELLFLAGS := -eu -o pipefail -c

CARGO := --release --offline --locked --quiet --manifest-path host/Cargo.toml
VERDICT := host/target/verdict
BESIDE := host/target/beside
LIBRARY := host/target/library/libentry.a
SANITIZED := host/target/sanitized/libentry.a
SANITIZED_BUILD := host/target/sanitized/build
PROGRAM := host/target/program
TRIED := host/target/tried
WARN := -Iinclude -Wall -Wextra -Wpedantic -Werror

# The prover writes some hundred files for each check: they are kept in memory, where 4 GB are free there.
SHARED := $(shell df -Pk /dev/shm 2>/dev/null | awk 'NR == 2 && $$4 > 4000000 { print "/dev/shm" }')
export TMPDIR ?= $(if $(SHARED),$(SHARED),/tmp)

.PHONY: test hosted beside ported replayed linked library program run try bench soak plain_soak stack cases vectors

# rt ci proves every crate, tries every edit and runs every program. Its last line, the verdict, is kept back until the runs over the static
# library have passed too, so that it is the last line of all. An edit that cannot be tried is a failure too, which rt ci only tells.
# What needs nothing of rt runs beside it, where rt leaves a processor idle.
test:
	@mkdir -p $(dir $(VERDICT))
	@nice -n 19 $(MAKE) --no-print-directory beside >$(BESIDE) 2>&1 & beside=$$!; \
	    rt ci 2>&1 | tee $(VERDICT) | sed -u '$$d' || { wait $$beside; tail -n 1 $(VERDICT); exit 1; }; \
	    wait $$beside || { cat $(BESIDE); exit 1; }; cat $(BESIDE)
	@! grep -E '^rt: ok.*, [0-9]+ bad' $(VERDICT)
	@rm -f $(LIBRARY)
	@$(MAKE) --no-print-directory ported
	@tail -n 1 $(VERDICT)

# What is run and not proved: the model answers as documents 01 and 02 say; header and library fit, the port and its program answer as the
# model does.
hosted: beside ported

# The model, as documents 01 and 02 say and by second routes, and the words that the generators make; and the crates below those that link the
# library, for the soak too.
beside:
	@cargo test $(CARGO) -p patch-model -p patch-generate -p lolli-extract -p cases
	@cargo run $(CARGO) -p apart -- model
	@cargo build $(CARGO) --target-dir $(SANITIZED_BUILD) -p apart

# rt checks the entry points to make the library, on one processor; what needs no library runs beside it.
ported: program
	@$(MAKE) --no-print-directory --jobs=2 --output-sync $(SANITIZED) replayed
	@$(MAKE) --no-print-directory linked

replayed:
	@cargo run $(CARGO) -p apart -- program

# The library asks for memcpy and memset from outside, and for nothing else: README says so to whoever links it.
linked: library
	@test "$$(nm -u $(LIBRARY) | awk 'NF == 2 { print $$2 }' | sort | xargs)" = "memcpy memset" || { nm -u $(LIBRARY); exit 1; }
	@gcc -std=c99 $(WARN) host/c/smoke.c $(LIBRARY) -o host/target/smoke && host/target/smoke
	@gcc -x c++ $(WARN) host/c/smoke.c -x none $(LIBRARY) -o host/target/smoke && host/target/smoke
	@gcc -std=c99 $(WARN) host/c/example.c $(LIBRARY) -o host/target/example && host/target/example | tee host/target/example.c.out
	@cargo run $(CARGO) -p patch --example reduce | diff host/target/example.c.out -
	@cargo test $(CARGO) -p patch -p write
	@cargo run $(CARGO) -p differential
	@$(MAKE) --no-print-directory soak CASES=1000000 SECONDS=60
	@cargo run $(CARGO) -p differential -- stack

library: $(LIBRARY)

$(LIBRARY): host/library.sh crates.txt $(shell find crates -name out -prune -o -type f -print)
	@host/library.sh

program:
	@mkdir -p $(dir $(PROGRAM))
	@cd crates/patchrun && rt run <stdin >$(CURDIR)/$(PROGRAM) 2>&1 || { cat $(CURDIR)/$(PROGRAM); exit 1; }

# A stored `((\x. x) ())`, reduced: its text, then the counts.
run: program
	@host/patchrun.sh <crates/patchrun/stdin

# A term written by hand, reduced. The terminal's own TERM is not taken for one.
try: library program
	@$(if $(filter command,$(origin TERM)),,$(error which term? make try TERM='fst ((\x. x) (a, b))'))cargo run $(CARGO) -p write -- "$$TERM" >$(TRIED)
	@host/patchrun.sh <$(TRIED)

bench: library
	@cargo run $(CARGO) -p bench -- $(MODE)

# Any call on any input against the model, in a process for each processor: CASES in all, SECONDS at most. AddressSanitizer watches the engine.
CASES := 50000000
SECONDS := 3600
soak: $(SANITIZED)
	@PATCH_LIBRARY=$(CURDIR)/$(dir $(SANITIZED)) cargo rustc $(CARGO) --target-dir $(SANITIZED_BUILD) -p differential --features sanitized \
	    -- -C default-linker-libraries=yes -C link-arg=-fsanitize=address
	@ASAN_OPTIONS=detect_leaks=0 $(SANITIZED_BUILD)/release/differential soak 2 $(CASES) $(SECONDS)

$(SANITIZED): $(LIBRARY)
	@host/library.sh sanitized

# The same over the library as it is shipped: pages that nobody may touch watch it, AddressSanitizer does not.
plain_soak: library
	@cargo run $(CARGO) -p differential -- soak 2 $(CASES) $(SECONDS)

# The stack that each call takes on its deepest inputs.
stack: library
	@cargo run $(CARGO) -p differential -- stack measure

# The list of the Rust's answers that crates/cases proves the rules by.
cases:
	@cargo run $(CARGO) -p cases > host/target/cases
	@mv host/target/cases crates/cases/specs/RustCases.antt

# The list of answers that the program crates/vectors replays, and what it prints if all are right.
vectors:
	@cargo run $(CARGO) -p cases --bin vectors > host/target/vectors
	@cargo run $(CARGO) -p cases --bin vectors said > host/target/said
	@mv host/target/vectors crates/vectors/stdin
	@mv host/target/said crates/vectors/stdout
