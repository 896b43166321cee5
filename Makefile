# The README's two commands, and the Rust beside the port.
.PHONY: test run treelist examples ffi library ffi-test oracle record oracle-test differ lex hostile bench pair

# The gate: layout, proofs, must-fail edits, programs.
test:
	.ci/run

# The program treelist, proved, and what it prints of document 01's sheet for `\frac 1 2`. Other sheets lie beside it in examples/.
run: treelist
	tools/treelist < examples/frac.sheet

# Proved and built: crates/treelist/out/treelist.
treelist:
	cd crates/treelist && rt run < ../../examples/frac.sheet > /dev/null

# What treelist prints of every sheet in examples/, compared with what is stored there.
examples: treelist
	examples/check

# The proved parser as a static library for C and Rust, beside include/cartglaze.h: target/staticlib/libffi.a. It is for x86-64.
LIBRARY = $(CURDIR)/target/staticlib
ffi:
	cd crates/ffi && rt lib
	mkdir -p $(LIBRARY)
	cp crates/ffi/out/libffi.a $(LIBRARY)/libffi.a

# The folder that it lies in.
library:
	@echo $(LIBRARY)

# The library through its C header and through the safe Rust crate: what both give is compared with what is stored.
ffi-test: ffi target/ffi/example target/ffi/list
	target/ffi/example | diff ffi-c/expected -
	TREELIST=$(CURDIR)/target/ffi/list examples/check
	CARTGLAZE_LIB=$(LIBRARY) cargo test --offline --release --manifest-path ffi-rust/Cargo.toml --target-dir target/ffi/rust -- --nocapture

target/ffi/%: ffi-c/%.c include/cartglaze.h ffi
	mkdir -p target/ffi
	$(CC) -std=c11 -Wall -Wextra -Werror -pedantic -Iinclude $< $(LIBRARY)/libffi.a -o $@

# The real Rust, built from the sources in the folder that MITEX_SRC names, beside the port.
oracle:
	./oracle/setup

# The fixed list of cases and answers, written anew into crates/cases/data/.
record:
	./oracle/record

# The tests of the Rust side.
oracle-test:
	./oracle/test

# The proved library held against the real Rust, over so many formulas.
CASES = 2000000
SEED = 1
differ:
	./oracle/beside
	nice target/oracle/release/differ $(CASES) $(SEED)

# The proved tokeniser held against the repository's lexer, over so many texts: they differ as docs/DIFFERENCES.md lists and not otherwise.
lex: CASES = 5000000
lex:
	./oracle/beside
	nice target/oracle/release/lex $(CASES) $(SEED)

# Tables that no lexer makes, rows that no run gives, and any bytes as a text, against the model: some thousand under valgrind first, then so many.
HOSTILE = 1000000
hostile:
	./oracle/beside
	nice valgrind --quiet --error-exitcode=9 target/oracle/release/hostile 20000 $(SEED) bare
	nice target/oracle/release/hostile $(HOSTILE) $(SEED)

# The port, the Rust's parser and a Vec of rows on the same tokens; before them what the library calls, and its stack.
bench:
	./oracle/beside
	nm -u $(LIBRARY)/libffi.a
	target/oracle/release/bench stack
	target/oracle/release/bench

# Another build of the library, the archive that BEFORE names, and this one in one process, called in turns.
WORKLOAD = binder
TOKENS = 1000 4000 10000 16000
pair:
	./oracle/beside
	oracle/pair/run $(BEFORE) $(LIBRARY)/libffi.a $(WORKLOAD) $(TOKENS)
