# make                            prove the crates of the program, and build it
# make show                       build a program that has `roam show` alone
# make test                       run the gate
# make try                        test the built program, as processes and at terminals
# make bench                      run the benchmarks, which also need a C compiler and Python
# make install PREFIX=/usr/local  install the program, its tools and their pages
# make deb, make dist             build the packages
#
# All of them need `rt` of the kit on the PATH.
.PHONY: all show test bench try install deb dist clean FORCE

all: program = roam
show: program = roam_show_bin

# tools/build decides what must be proved, and in which order. ./roam compares the stamp `current` with the sources. A file that is edited
# during the build is newer than the stamp.
all show:
	@mkdir -p crates/roam/out crates/$(program)/out
	@touch crates/$(program)/out/began
	@tools/build $(program)
	@mv -f crates/$(program)/out/began crates/$(program)/out/current
	@crates/$(program)/out/$(program) --help > /dev/null

# Build one crate, with those below it.
crates/%/out/built: FORCE
	@tools/build $*

# The gate: unit tests and checks of pages, every proof, must-fail edits, tests, and the built program.
test:
	@.ci/run

bench: all
	bench/grid.sh
	bench/show.sh
	bench/update.sh
	bench/paint.sh
	bench/hub.sh
	bench/latency.sh

try: all
	tests/program/run
	tests/e2e/two_processes
	tests/e2e/run -j "$$(nproc)"
	tests/stress/try_faults
	tests/stress/try_windows

PREFIX ?= /usr/local
# The last line of the gate that proved these files. The packages record it.
GATE ?=

install: all
	@tools/package install --gate "$(GATE)" --root "$(DESTDIR)" "$(PREFIX)"

# Build packages in out: one for Debian, and a tarball for any x86-64 Linux with a C library that is new enough.
deb dist: all
	@tools/package $@ --gate "$(GATE)"

clean:
	rm -rf crates/*/out out
