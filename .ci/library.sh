#!/usr/bin/env bash
# Builds bin/libdtman.a, bin/libdtman_arena.a and bin/libdtman_view.a and tries the C examples over them: what they print, under which compilers,
# sanitizers and valgrind, for which processors, and that a boot loader's step makes the board that the program makes. Where a tool isn't there, it says what wasn't tried.
set -euo pipefail
cd "$(dirname "$0")/.."
work=$(mktemp -d)
trap 'rm -rf "$work"' EXIT

# fail WORD..: says what went wrong, and ends
fail() {
	echo "library: $*" >&2
	exit 1
}

# has TOOL WHAT: whether a tool is there; else it says what isn't tried
has() {
	command -v "$1" >/dev/null && return
	echo "library: $1 isn't here, so $2" >&2
	return 1
}

.ci/library
for name in board hat; do bin/dtman compile "examples/$name.dts" "$work/$name.dtb" --symbols; done
bin/dtman compile examples/c/boot-arguments.dts "$work/arguments.dtb"
# Two overlays, as the program applies them.
bin/dtman overlay "$work/board.dtb" "$work/hat.dtb" "$work/overlaid.dtb"
bin/dtman overlay "$work/overlaid.dtb" "$work/arguments.dtb" "$work/overlaid.dtb"
# A boot loader's step, what it says, and the same by an overlay.
step=("$work/overlaid.dtb" 0x40000000 "root=/dev/nvme0n1p1 \"two words\"" 0x88000000 0x400000)
cat >"$work/said" <<'END'
memory: 0x20000000 bytes at 0x80000000
reserved: 0x10000 bytes at 0x80000000
reserved: 0x1000000 bytes at 0x9f000000
memory: 0x40000000 bytes at 0x80000000
reserved: 0x10000 bytes at 0x80000000
reserved: 0x1000000 bytes at 0x9f000000
reserved: 0x400000 bytes at 0x88000000
arguments: root=/dev/nvme0n1p1 "two words"
END
while read -r line; do grep -qxF "$line" examples/c/README.md || fail "examples/c/README.md shows another output of boot"; done <"$work/said"
cat >"$work/setting.dts" <<'END'
/dts-v1/;
/plugin/;
&{/chosen} {
	bootargs = "root=/dev/nvme0n1p1 \"two words\"";
	linux,initrd-start = /bits/ 64 <0x88000000>;
	linux,initrd-end = /bits/ 64 <0x88400000>;
};
&{/memory@80000000} { reg = <0 0x80000000 0 0x40000000>; };
END
bin/dtman compile "$work/setting.dts" "$work/setting.dtb"
bin/dtman overlay "$work/overlaid.dtb" "$work/setting.dtb" "$work/set.dtb"
# No overlay reserves memory: that of the initial file system is put into the source.
bin/dtman dump "$work/set.dtb" | sed '/^\/ {$/i /memreserve/ 0x88000000 0x400000;' | bin/dtman compile - "$work/booted.dtb"

# same_board BLOB WHAT: whether the blob holds the board that boots
same_board() {
	[ -z "$(bin/dtman diff "$1" "$work/booted.dtb")" ] || fail "$2 makes another board than the program"
}

# The report of a run by the program's own threads.
echo '# nothing happened yet' >"$work/empty.schedule"
bin/dtman replay examples/sensor-board.plan "$work/empty.schedule" --workers 4 >"$work/report"

# try_arena NAME FOLDER [RUNNER..]: runs the examples that take no memory by malloc, and compares what they print and write
try_arena() {
	local name=$1 built=$2
	shift 2
	"$@" "$built/boot" "${step[@]}" "$built/out.dtb" | diff "$work/said" - || fail "$name: examples/c/boot says something else"
	same_board "$built/out.dtb" "$name: examples/c/boot"
	"$@" "$built/overlay" "$work/board.dtb" "$work/hat.dtb" "$work/arguments.dtb" "$built/out.dtb" >"$built/taken" || fail "$name: examples/c/overlay ends otherwise"
	grep -qE '^[0-9]+ bytes at most were taken of the arena$' "$built/taken" || fail "$name: examples/c/overlay says something else"
	cmp "$built/out.dtb" "$work/overlaid.dtb" || fail "$name: examples/c/overlay makes another blob than the program"
	"$@" "$built/edits" | diff examples/c/edits.txt - || fail "$name: examples/c/edits says something else"
	"$@" "$built/mutated" examples/sensor-board.dtb "$mutations" | diff "$work/mutations" - || fail "$name: examples/c/mutated ends otherwise"
}

# try_bare NAME FOLDER [RUNNER..]: runs those that have no libc
try_bare() {
	local name=$1 built=$2 wanted=(bare 7 bare_set 1 bare_overlay 42) ended
	shift 2
	for ((i = 0; i < ${#wanted[@]}; i += 2)); do
		ended=0
		"$@" "$built/${wanted[i]}" || ended=$?
		[ "$ended" = "${wanted[i + 1]}" ] || fail "$name: examples/c/${wanted[i]} ends with $ended"
	done
}

# try_c NAME COMPILER FLAGS [RUNNER..]: builds the examples, runs them, and compares what they print and write
try_c() {
	local name=$1 built=$work/${1// /-} compiler=$2 flags=$3
	shift 3
	mkdir -p "$built"
	make -s -C examples/c OUT="$built" CC="$compiler" CFLAGS="$flags" || fail "$name: the examples aren't built"
	"$@" "$built/calls" | diff examples/c/calls.txt - || fail "$name: examples/c/calls says something else"
	"$@" "$built/bus" examples/sensor-board.plan | diff "$work/report" - || fail "$name: examples/c/bus ends with another report"
	try_arena "$name" "$built" "$@"
	# the arena by itself, with what makes pointers of it built by the compiler's flags, too
	# shellcheck disable=SC2086
	"$compiler" -std=c11 -Wall -Wextra -Werror $flags -Iinstall -o "$built/arena" .ci/arena.c install/arena.c bin/libdtman_arena.a || fail "$name: the arena isn't built"
	"$@" "$built/arena" "$requests" || fail "$name: the arena isn't as it should be"
	echo "library: $name: the examples do what they should"
}

requests=20000
# 100,000 changed blobs, walked whole by the view; under valgrind a hundredth of them.
mutations=100000
cp examples/c/mutated.txt "$work/mutations"

compilers=()
for compiler in gcc clang; do ! has "$compiler" "the examples aren't built by it" || compilers+=("$compiler"); done
[ ${#compilers[@]} -gt 0 ] || ! has cc "the examples aren't built" || compilers=(cc)
for compiler in "${compilers[@]}"; do
	try_c "$compiler" "$compiler" -O2
	if echo 'int main(void) { return 0; }' | "$compiler" -fsanitize=address,undefined -o "$work/sanitized" -x c - 2>/dev/null; then
		try_c "$compiler with its sanitizers" "$compiler" "-g -O1 -fsanitize=address,undefined -fno-sanitize-recover"
	else
		echo "library: $compiler has no sanitizers here, so the examples aren't tried with them" >&2
	fi
done
if [ ${#compilers[@]} -gt 0 ] && has valgrind "the examples aren't run under it"; then
	mutations=1000 requests=100
	"$work/${compilers[0]// /-}/mutated" examples/sensor-board.dtb 1000 >"$work/mutations"
	try_c valgrind "${compilers[0]}" "-g -O1" valgrind -q --leak-check=full --error-exitcode=9
fi
if has c++ "the headers aren't read as C++"; then for header in dtman dtman_arena dtman_view; do c++ -std=c++11 -Wall -Werror -fsyntax-only -x c++ install/$header.h; done; fi

# install/arena.c, which is built without headers, has what its own declares.
if [ ${#compilers[@]} -gt 0 ]; then
	"${compilers[0]}" -std=c11 -Wall -Wextra -Werror -fsyntax-only -include install/dtman_arena.h install/arena.c || fail "install/arena.c isn't what its header declares"
fi

# Neither the view nor, over an arena, the engines want a libc.
if [ ${#compilers[@]} -gt 0 ] && [ "$(uname -sm)" = "Linux x86_64" ]; then
	make -s -C examples/c OUT="$work" CC="${compilers[0]}" freestanding
	try_bare "without libc" "$work"
	echo "library: the examples without libc end as they should"
fi

# The same for another processor, which is imitated.
if [ ${#compilers[@]} -gt 0 ] && has aarch64-linux-gnu-gcc "nothing is built for aarch64" && has qemu-aarch64 "nothing is tried for aarch64"; then
	mkdir -p "$work/aarch64"
	TARGET=aarch64-unknown-linux-gnu .ci/library
	make -s -C examples/c OUT="$work/aarch64" CC=aarch64-linux-gnu-gcc CFLAGS="-O2 -static" TARGET=-aarch64 arena freestanding
	mutations=1000
	"$work/${compilers[0]// /-}/mutated" examples/sensor-board.dtb 1000 >"$work/mutations"
	try_arena aarch64 "$work/aarch64" qemu-aarch64
	try_bare aarch64 "$work/aarch64" qemu-aarch64
	echo "library: aarch64: the examples do what they should"
fi

# libfdt does the step too, in another order of properties, so the boards are compared; and each of its calls has a line in docs/libfdt.md.
if [ ${#compilers[@]} -gt 0 ] && echo '#include <libfdt.h>' | "${compilers[0]}" -E -x c - >"$work/libfdt" 2>/dev/null; then
	make -s -C examples/c OUT="$work" CC="${compilers[0]}" libfdt
	"$work/boot_libfdt" "${step[@]}" "$work/fdt.dtb" | diff "$work/said" - || fail "libfdt's step says something else"
	same_board "$work/fdt.dtb" "libfdt's step"
	# Its calls over the blobs of the examples, and the same over the library of its names.
	blobs=(examples/*.dtb "$work/board.dtb" "$work/hat.dtb" "$work/overlaid.dtb")
	for program in libfdt_calls libfdt_changes; do
		"$work/$program" "${blobs[@]}" >"$work/by-libfdt"
		"$work/own_$program" "${blobs[@]}" | diff "$work/by-libfdt" - || fail "examples/c/$program says something else over bin/libfdt/libfdt.a than over libfdt.a"
	done
	echo "library: bin/libfdt answers as libfdt does: $(awk '{ sum += $2 } END { print sum }' <("$work/own_libfdt_calls" "${blobs[@]}")) look-ups and $(wc -l <"$work/by-libfdt") changes"
	if has fdtget "no program is run over bin/libfdt"; then
		for blob in "${blobs[@]}"; do
			for words in "-l $blob /" "-p $blob /" "-t s $blob / compatible" "-t x $blob / #address-cells" "$blob / none" "-l $blob /none"; do
				for folder in "" "$PWD/bin/libfdt"; do
					# shellcheck disable=SC2086
					LD_LIBRARY_PATH=$folder fdtget $words >"$work/told${folder:+-own}" 2>&1 || echo "status $?" >>"$work/told${folder:+-own}"
				done
				diff "$work/told" "$work/told-own" || fail "fdtget $words says something else over bin/libfdt"
			done
		done
	fi
	if has fdtput "no blob is changed by a program over bin/libfdt"; then
		for words in "-t s BLOB / model another" "-t x BLOB / added 1 2 3" "-c BLOB /added" "-cp BLOB /one/two" "-d BLOB / model" "-r BLOB /chosen" "-d BLOB / none"; do
			for folder in "" "$PWD/bin/libfdt"; do
				put=$work/put${folder:+-own}
				cp "$work/overlaid.dtb" "$put.dtb"
				# shellcheck disable=SC2086
				LD_LIBRARY_PATH=$folder fdtput ${words/BLOB/$put.dtb} >"$put" 2>&1 || echo "status $?" >>"$put"
			done
			diff "$work/put" "$work/put-own" || fail "fdtput $words says something else over bin/libfdt"
			[ -z "$(bin/dtman diff "$work/put.dtb" "$work/put-own.dtb")" ] || fail "fdtput $words makes another board over bin/libfdt"
		done
	fi
	header=$(sed -n 's/^# 1 "\(.*\/libfdt.h\)".*/\1/p' "$work/libfdt" | head -1)
	while read -r call; do
		grep -qF "\`$call\`" docs/libfdt.md || fail "docs/libfdt.md has no line for $call"
	done < <(grep -oE '^((static inline |const )?[a-z0-9_]+ \*?|#define )fdt[a-z0-9_]+\(' "$header" | grep -oE 'fdt[a-z0-9_]+\($' | tr -d '(' | sort -u)
	for name in boot boot_libfdt; do [ -e "$work/$name" ] || cp "$work/${compilers[0]}/$name" "$work"; done
	echo "library: libfdt's step says the same; its program has $(size -A "$work/boot_libfdt" | awk '$1 ~ /^\.(text|rodata)$/ { sum += $2 } END { print sum }') bytes of code and constants, that of the view $(size -A "$work/boot" | awk '$1 ~ /^\.(text|rodata)$/ { sum += $2 } END { print sum }')"
else
	echo "library: libfdt isn't here, so its step isn't compared" >&2
fi
