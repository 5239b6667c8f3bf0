# make            proves everything; target/staticlib/libspireyerba.a, the programs and the command in target/bin, and the
#                 libraries that are installed in target/lib
# make quick      proves what changed and runs the Rust tests
# make install    the command, the libraries, headers, manual pages, completions and the Python package under PREFIX
# make uninstall  takes them away again
# make test       all tests, from nothing
# make bench      the library's times beside those of Rust on the same inputs
# make proved     the archive and the programs alone, with the proofs that they need
# make clean      removes all that was built, and what was kept of proofs

PREFIX ?= /usr/local
export PREFIX DESTDIR BINDIR LIBDIR INCLUDEDIR DATADIR PYTHONDIR

archive := target/staticlib/libspireyerba.a
text_interface := $(shell sed -n 's/^.define SPIREYERBA_TEXT_INTERFACE //p' include/spireyerba_text.h)

.PHONY: all quick proved command libraries install uninstall test bench clean

all:
	rt all check
	$(MAKE) proved command libraries

quick:
	rt all check
	$(MAKE) proved
	cargo test --release --locked --workspace

# `rt lib` and `rt run` prove what is not proved yet; a program stays where it was run.
proved:
	cd crates/spireyerba_c && rt lib
	install -D -m 644 crates/spireyerba_c/out/libspireyerba_c.a $(archive)
	for program in lister run_cases; do \
		(cd crates/$$program && rt run >/dev/null) && install -D crates/$$program/out/$$program target/bin/$$program || exit 1; \
	done

$(archive):
	$(MAKE) proved

command: $(archive)
	cargo build --release --locked --package spireyerba-cli
	install -D target/cargo/release/spireyerba target/bin/spireyerba

libraries: $(archive)
	packaging/shared.sh $(archive)
	cargo build --release --locked --package spireyerba-text
	install target/cargo/release/libspireyerba_text.so target/lib/libspireyerba_text.so.$(text_interface)

install: command libraries
	packaging/install.sh install

uninstall: command
	packaging/install.sh uninstall

test:
	.ci/run

bench: proved
	cargo build --profile bench --locked --package spireyerba-cli
	if command -v python3 >/dev/null; then $(MAKE) -s libraries && PYTHONPATH=python python3 python/bench.py; fi
	cargo run --profile bench --locked --package spireyerba-bench

clean:
	rm -rf target crates/*/out
