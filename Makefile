# The commands of the README.
#   make run      builds the library's archive and the demo over it, and runs the demo
#   make lib      proves what changed and builds build/libntsync.a (NTSYNC_LIB=FILE takes that archive)
#   make install  copies headers, archive and ntsync.pc to PREFIX (/usr/local), below DESTDIR if that is set
#   make quick    tests hosts and library over a finished archive (build/libntsync.a or NTSYNC_LIB=FILE): a minute, no prover
#   make test     the whole gate
#   make bench    the benchmark
#   make clean    removes all that was built, proofs too
PREFIX ?= /usr/local
DESTDIR ?=
to := $(DESTDIR)$(PREFIX)
archive := build/libntsync.a

.PHONY: run lib install quick test bench clean

run:
	$(MAKE) -s -C hosts/demo run

lib:
	hosts/build

$(archive):
	hosts/build

# An archive that is there is taken as it is, so that installing as another user proves nothing.
install: | $(archive)
	install -d "$(to)/include" "$(to)/lib/pkgconfig"
	install -m 644 include/ntsync.h include/ntsync_util.h "$(to)/include"
	install -m 644 $(archive) "$(to)/lib"
	sed -e 's|@PREFIX@|$(PREFIX)|' -e "s|@VERSION@|$$(sed -n 's/^#define NTSYNC_VERSION //p' include/ntsync.h)|" \
	    include/ntsync.pc.in > "$(to)/lib/pkgconfig/ntsync.pc"
	chmod 644 "$(to)/lib/pkgconfig/ntsync.pc"

quick:
	@[ -f "$${NTSYNC_LIB:-$(archive)}" ] || \
	    { echo "make quick needs a finished archive: make lib first, or NTSYNC_LIB=FILE make quick" >&2; exit 2; }
	NTSYNC_LIB="$${NTSYNC_LIB:-$(archive)}" hosts/check
	tests/run --calls 50000

test:
	.ci/run

bench:
	bench/run

clean:
	rm -rf build target crates/*/out
