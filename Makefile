# dtman: build, try and prove. `rt` is the toolchain's command.

.PHONY: build library demo test install uninstall dist deb clean toolchain

PREFIX ?= /usr/local
export PREFIX DESTDIR MAINTAINER TARGET LIBFDT

# Proves and builds the program, and leaves it at bin/dtman.
build: toolchain
	@.ci/build

# Proves and builds the C libraries, and leaves them at bin/libdtman.a, bin/libdtman_arena.a and bin/libdtman_view.a; with
# TARGET=aarch64-unknown-linux-gnu the two that want no malloc, for that processor, bin/libdtman_arena-aarch64.a and bin/libdtman_view-aarch64.a.
# Where libfdt.h is installed, bin/libfdt has libfdt.a and libfdt.so.1: libfdt's own names over bin/libdtman_view.a (docs/libfdt.md).
library: toolchain
	@.ci/build library

# The commands over the example boards, before anything is proved. The program stays at bin/dtman-unproved.
demo: bin/dtman-unproved
	@.ci/demo

bin/dtman-unproved: crates.txt $(shell find crates/*/src -name '*.rt') | toolchain
	@.ci/unproved

# The gate: every proof from nothing, the must-fail edits, the tests and the program. One job a check, on one processor, and as many checks as
# processors: `rt` by itself reckons the memory of a check so high that half of the processors stand idle.
test: toolchain
	@.ci/gate

# Puts what bin/ has, with man pages and completions, below DESTDIR/PREFIX; takes it away again. Only a proved program is installed or packed.
# With LIBFDT=1 also bin/libfdt, into lib/dtman-libfdt, where no linker looks by itself.
install: bin/dtman
	@install/install.sh install

uninstall:
	@install/install.sh uninstall

# A tar ball with the built program and its checksum, a Debian package: into out/dist.
dist deb: bin/dtman
	@install/install.sh $@

bin/dtman:
	@echo "bin/dtman isn't built. \`make build\` proves it and builds it, which takes 200 to 300 processor minutes:" >&2; \
	echo "an hour to an hour and a half on 4 cores. \`make demo\` leaves a program that isn't proved, in two to four minutes." >&2; \
	exit 1

toolchain:
	@command -v rt >/dev/null || { \
	echo "rt isn't on the path: it is the command of the Rattle toolchain kit (rattle-kit-13f), which compiles and proves dtman." >&2; \
	echo "The kit is one folder and needs no network: link its bin/rt into a folder of the path; then \`rt version\` tells the kit, \`rt doc\` its first page." >&2; \
	exit 1; }

clean:
	rm -rf bin out crates/*/out
