# `make run` proves, builds and runs the program, and `make test` runs the tests. `make try` runs the program at once, without
# a proof, `make demo` shows the search page, and `make compare` compares the program with the original crate.
PREFIX ?= /usr/local
PROGRAM = crates/elasticlunr_index/out/elasticlunr_index
COMMAND = crates/elasticlunr_cli/out/elasticlunr_cli
PORT ?= 8095

.PHONY: run try build command lib lib-test script calls demo test stems compare mdbook books install dist dist-test pdoc

# Reads a job from standard input, and takes an example where that is a terminal or empty.
run: build
	@python3 tools/run.py

# The same without a proof, for a first look.
try:
	@python3 tools/run.py --try

build:
	@python3 tools/build.py elasticlunr_index

# The command `elasticlunr`.
command:
	@python3 tools/build.py elasticlunr_cli

# The library for C, in out/lib, and its header in out/include.
lib:
	@python3 tools/library.py out

# Calls it from C, Python and Rust, built by both compilers of the kit, and tries the archive of a release.
lib-test: build command
	@mkdir -p out && python3 tests/checks.py out/lib-test.log library

# The program that prints the script for browsers.
script:
	@python3 tools/build.py elasticlunr_script

# The program that runs the tables of vectors, and the test that makes calls of the library alone.
calls:
	@python3 tools/build.py elasticlunr_vectors
	@cd crates/elasticlunr_tests && rt test > /dev/null

# The page of the clauses and their mutants.
.PHONY: claims
claims:
	@python3 tools/claims.py > docs/CLAIMS.md

# The search page over the indexes of examples/ in three languages, and over one of 2,000 pages in pieces, on
# http://127.0.0.1:$(PORT)/.
demo: build command
	@python3 tools/demo.py $(PORT)

# Runs `rt ci`, which proves every crate from nothing, tries the mutants, and runs the tests and the programs, and at the same
# time the checks of tests/ on these programs.
test:
	@tools/test.sh

# Compares the stems of all vocabularies with those of Snowball, and of made-up words with those of its program. It needs Debian's
# packages snowball-data and libstemmer-tools.
stems:
	@python3 tools/build.py elasticlunr_vectors
	@python3 tests/stems.py --all

# Compares random documents with the original crate, and prints speed and memory of both. The original is built over the newest
# crates that Debian has, or over those of the release that BESIDE names: its stemmer is slower over an older `regex`.
compare: build
	@bench/compare/compare.sh

# Builds mdBook with elasticlunr-rs and with the crate of rust/, and compares the books that both build. It needs root, the
# network and about an hour.
mdbook: lib
	@tests/mdbook.sh

# Indexes two books of HTML that Debian has, and searches them on the page in Chromium. It needs root and the network.
books: command
	@python3 tests/html_books.py

# Builds documentation by pdoc, as it is and with its index made here, and compares what both find. It needs node, chromium and the network.
pdoc: lib
	@python3 tests/pdoc_index.py

install: build command
	@install -d "$(DESTDIR)$(PREFIX)/bin"
	@install -m 755 $(PROGRAM) "$(DESTDIR)$(PREFIX)/bin/elasticlunr_index"
	@install -m 755 $(COMMAND) "$(DESTDIR)$(PREFIX)/bin/elasticlunr"

# The archive of a release, in out/dist.
dist: build command lib
	@python3 tools/dist.py

# Unpacks it in a bare Debian, and tries there what its README says. Needs root, debootstrap and the network.
dist-test: dist
	@python3 tests/dist.py
