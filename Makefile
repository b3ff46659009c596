# The two commands of README.md, and what else there is to run.

.PHONY: run explain assemble picture rights test prove lib install compare tools hosts soak bench figures instructions format clean help

# Proves and builds the program, runs it on the specification's example, or on a list (make run LIST=file), and shows each line with its answer,
# and both in words. A line on standard error tells each crate that had to be proved first, here and below.
run:
	@scripts/run $${LIST:+"$$LIST"}

# The same in words alone: of the example, or of a list (make explain LIST=file).
explain:
	@scripts/explain $${LIST:+"$$LIST"}

# The frames of calls written as text: of the example, or of a file (make assemble LIST=file).
assemble:
	@scripts/assemble $${LIST:+"$$LIST"}

# An SVG of a list and its answers: make picture LIST=file OUT=file; target/picture.svg where no file is named.
picture:
	@scripts/picture "$${LIST:-}" "$${OUT:-}"

# Prints the 36 digits of a rights table from its three lines: of the example, or of a file (make rights TABLE=file).
rights:
	@scripts/rights $${TABLE:+"$$TABLE"}

# Runs all tests, as the gate does. Each crate is proved, each must-fail edit tried (but what `rt` kept of the same files), the programs are compared
# with the second implementation, the archive is tried from C and Rust. The last line is 'N passed, 0 failed'.
test:
	@scripts/test

# Proves each crate, and builds the programs.
prove:
	@rt all check && scripts/program

# Proves and builds the core for C and Rust: target/include/scopes.h and target/lib/libscopes.a.
lib:
	@scripts/lib

# Installs what make lib left, with a file for pkg-config: make install PREFIX=/usr/local. DESTDIR is put in front of it.
install:
	@scripts/install $${PREFIX:+"$$PREFIX"}

# The programs against the second implementation alone, after `make prove`.
compare:
	@scripts/compare

# Tries the tools that show lists of calls, on the examples, after `make prove`.
tools:
	@scripts/tools

# Tries the archive alone from C, C++ and Rust, and compares its functions with plain Rust and the second implementation.
hosts:
	@scripts/hosts

# The program's comparison on fresh lists for as long as one likes: make soak SECONDS=600; a minute where no number is named.
soak:
	@scripts/soak '$(SECONDS)'

# Measures speed, as ratios: the exported functions beside tuned and plain Rust, the program beside the second implementation. Writes
# target/BENCHMARKS.md and target/reference-check.svg.
bench:
	@scripts/bench

# Copies what the last `make bench` wrote into docs.
figures:
	@scripts/figures

# Counts the instructions of each exported call beside tuned and plain Rust's alone; needs valgrind.
instructions:
	@scripts/instructions

# Formats the code of all crates.
format:
	@for crate in crates/*/; do (cd "$$crate" && rt fmt) || exit 1; done

# Removes everything that was built.
clean:
	@rm -rf target crates/*/out

# Lists these targets.
help:
	@scripts/help
