# Needs the Rattle toolchain (`rt`), and `make bench` also cargo, and valgrind to count instructions. What `make test` needs is
# in README.md. Everything that is made lies in target/, but for the figures and the plot of docs/SPEED.md. `rt` itself knows what has
# changed, so no target is a file.

.PHONY: all archive listing show list test bench figures sizes install uninstall clean
.NOTPARALLEL:

# The archive for C, target/staticlib/libmvpn.a, the listing program, target/bin/mvpn_list, and the showing program, mvpn_show.
all: archive listing show

archive:
	cd crates/mvpn && rt lib
	mkdir -p target/staticlib
	cp crates/mvpn/out/libmvpn.a target/staticlib/libmvpn.a

# `rt run` proves, builds and runs the program.
listing:
	cd crates/mvpn_list && rt run <stdin | cmp - stdout
	mkdir -p target/bin
	cp crates/mvpn_list/out/mvpn_list target/bin/mvpn_list

# The showing program is C, and is built of the archive that there is.
CFLAGS = -O2
show:
	@test -f target/staticlib/libmvpn.a || { echo "make show: there is no archive; run 'make archive' first" >&2; exit 1; }
	mkdir -p target/bin
	$(CC) -std=c99 $(CFLAGS) -Iinclude -Iprograms/shared programs/mvpn_show/*.c programs/shared/*.c \
	    target/staticlib/libmvpn.a $(LDFLAGS) -o target/bin/mvpn_show

# Proves, builds, and lists the sample run.
list: listing
	target/bin/mvpn_list <examples/sample.run

# The gate: every proof, every test.
test:
	.ci/run

# The rounds of a run of the benchmark.
rounds = 1500

run_bench = CARGO_TARGET_DIR='$(CURDIR)/target/cargo' MVPN_LIB_DIR='$(CURDIR)/target/staticlib' \
    cargo run --release --offline --manifest-path conformance/Cargo.toml --bin bench -- --rounds $(rounds)

# The archive's calls beside the same work in plain Rust; what is printed is kept in target/bench.txt.
bench: archive
	$(run_bench) >target/bench.txt; status=$$?; cat target/bench.txt; exit $$status

# Octets by which the code is moved in each run for docs/SPEED.md: every place of a function, which lies at a multiple of 16, in
# the 64 octets of a line of the cache.
shifts = 0 16 32 48

# The figures and the plot of docs/SPEED.md. The machine should have nothing else to do.
figures: archive
	for shift in $(shifts); do BENCH_SHIFT=$$shift $(run_bench) >target/bench.$$shift.txt || exit 1; done
	tools/figures $(shifts:%=target/bench.%.txt)
	cat $(shifts:%=target/bench.%.txt) | tools/plot >docs/match.svg

# A row for each crate: lines of code, contracts, definitions and proofs, and functions.
sizes:
	tools/sizes

# Where `make install` puts things; DESTDIR, if given, goes before each. They may have blanks in them.
PREFIX = /usr/local
BINDIR = $(PREFIX)/bin
INCLUDEDIR = $(PREFIX)/include
LIBDIR = $(PREFIX)/lib
PKGCONFIGDIR = $(LIBDIR)/pkgconfig
MANDIR = $(PREFIX)/share/man
DOCDIR = $(PREFIX)/share/doc/mvpn

# The calls, and the functions that the header defines, whose names begin a line; the manual page of each leads to mvpn(3).
calls = ${shell sed -n -e 's/^[a-z].* \(mvpn_[a-z_]*\)(.*/\1/p' -e 's/^\(mvpn_[a-z_]*\)(.*/\1/p' include/mvpn.h}

# The examples, with the README that goes with them; and what they share with the showing program, which is installed beside them.
examples = ${shell find examples -type f}
shared = ${shell cd programs && find shared -type f}

# In a recipe: the prefix, and a directory as mvpn.pc writes it.
in_prefix = prefix='$(PREFIX)'; \
    in_prefix() { case $$1 in "$$prefix"/*) echo "\$${prefix}/$${1\#"$$prefix"/}" ;; *) echo "$$1" ;; esac; }

# Installs what `make` has built. It builds nothing, so that it can run where the toolchain is not.
install:
	@test -f target/staticlib/libmvpn.a && test -x target/bin/mvpn_list && test -x target/bin/mvpn_show || \
	    { echo "make install: nothing is built; run 'make' first" >&2; exit 1; }
	install -d '$(DESTDIR)$(BINDIR)' '$(DESTDIR)$(INCLUDEDIR)' '$(DESTDIR)$(LIBDIR)' '$(DESTDIR)$(PKGCONFIGDIR)' \
	    '$(DESTDIR)$(MANDIR)/man1' '$(DESTDIR)$(MANDIR)/man3' '$(DESTDIR)$(DOCDIR)'
	install -m 755 target/bin/mvpn_list target/bin/mvpn_show '$(DESTDIR)$(BINDIR)'
	install -m 644 include/mvpn.h '$(DESTDIR)$(INCLUDEDIR)'
	install -m 644 target/staticlib/libmvpn.a '$(DESTDIR)$(LIBDIR)'
	install -m 644 man/mvpn_list.1 man/mvpn_show.1 '$(DESTDIR)$(MANDIR)/man1'
	install -m 644 man/mvpn.3 '$(DESTDIR)$(MANDIR)/man3'
	for call in $(calls); do install -m 644 man/call.3 '$(DESTDIR)$(MANDIR)/man3/'$$call.3; done
	install -m 644 docs/NUMBERS.md '$(DESTDIR)$(DOCDIR)'
	for file in $(examples); do install -D -m 644 $$file '$(DESTDIR)$(DOCDIR)/'$$file; done
	for file in $(shared); do install -D -m 644 programs/$$file '$(DESTDIR)$(DOCDIR)/examples/'$$file; done
	$(in_prefix); sed -e "s|@PREFIX@|$$(realpath -ms "$$prefix")|" -e "s|@INCLUDEDIR@|$$(in_prefix '$(INCLUDEDIR)')|" \
	    -e "s|@LIBDIR@|$$(in_prefix '$(LIBDIR)')|" -e "s|@VERSION@|$$(cat VERSION)|" \
	    mvpn.pc.in >'$(DESTDIR)$(PKGCONFIGDIR)/mvpn.pc'
	chmod 644 '$(DESTDIR)$(PKGCONFIGDIR)/mvpn.pc'

uninstall:
	rm -f '$(DESTDIR)$(BINDIR)/mvpn_list' '$(DESTDIR)$(INCLUDEDIR)/mvpn.h' '$(DESTDIR)$(LIBDIR)/libmvpn.a' \
	    '$(DESTDIR)$(PKGCONFIGDIR)/mvpn.pc' '$(DESTDIR)$(MANDIR)/man1/mvpn_list.1' '$(DESTDIR)$(MANDIR)/man3/mvpn.3' \
	    '$(DESTDIR)$(BINDIR)/mvpn_show' '$(DESTDIR)$(MANDIR)/man1/mvpn_show.1'
	for call in $(calls); do rm -f '$(DESTDIR)$(MANDIR)/man3/'$$call.3; done
	rm -f '$(DESTDIR)$(DOCDIR)/NUMBERS.md'
	for file in $(examples); do rm -f '$(DESTDIR)$(DOCDIR)/'$$file; done
	for file in $(shared); do rm -f '$(DESTDIR)$(DOCDIR)/examples/'$$file; done
	test ! -d '$(DESTDIR)$(DOCDIR)' || find '$(DESTDIR)$(DOCDIR)' -type d -empty -delete

clean:
	rm -rf target crates/*/out
