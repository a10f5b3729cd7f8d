#!/usr/bin/env bash
# Times `dtman overlay` on pairs of a base and an overlay, beside fdtoverlay where it is installed (a minute for each), with the
# most memory taken, and looks whether both answers hold the same tree: `bench/overlay/run.sh [small] [full]`, both without words.
#
# `same`      both trees are the same, but for the order of siblings and the numbers of new phandles (same_tree.py)
# `error ..`  what dtman says where it refuses
# `-`         dtman or fdtoverlay hasn't answered in time, or fdtoverlay hasn't been asked
#
# It fails where the trees differ, where dtman refuses a pair other than `symbols`, and where it answers that one otherwise than by 38
# (fdtoverlay doesn't get it: it would write what it is asked for). None of the pairs has another of the differences that docs/model/overlay.md
# lists (Where fdtoverlay answers otherwise).
set -euo pipefail
cd "$(dirname "$0")/../.."
make build
work=$(mktemp -d)
trap 'rm -rf "$work"' EXIT
status=0

# The least of three runs in seconds, and the most memory in MB, with the status in parentheses where it isn't 0.
measured() {
	for _ in 1 2 3; do
		/usr/bin/env python3 bench/compile/measured.py "$@" || break
	done | sort -n | head -1
}

# Whether two answers for a base hold the same tree, as same_tree.py says it.
same() {
	local name
	for name in base own theirs; do
		bin/dtman dump "$1" >"$work/$name.dts" || return 1
		shift
	done
	python3 bench/overlay/same_tree.py "$work/base.dts" "$work/own.dts" "$work/theirs.dts"
}

# What came of a base and an overlay, by what was measured of dtman and of fdtoverlay.
answers() {
	case $3 in
	over*) echo - ;;
	*\)) bin/dtman overlay "$1" "$2" "$work/own.dtb" 2>&1 || true ;;
	*)
		case $4 in
		- | over* | *\)) echo - ;;
		*) if same "$1" "$work/own.dtb" "$work/theirs.dtb"; then echo same; else echo DIFFERS; fi ;;
		esac
		;;
	esac
}

# A pair's row: its size, its name, and its folder.
row() {
	local base=$3/base.dtb overlay=$3/overlay.dtb own theirs=- says wanted='same|-'
	[ "$2" != symbols ] || wanted='error 38 TooLarge'
	rm -f "$work/own.dtb" "$work/theirs.dtb"
	own=$(measured bin/dtman overlay "$base" "$overlay" "$work/own.dtb")
	if [ "$2" != symbols ] && command -v fdtoverlay >/dev/null; then
		theirs=$(measured fdtoverlay -i "$base" -o "$work/theirs.dtb" "$overlay")
	fi
	says=$(answers "$base" "$overlay" "$own" "$theirs")
	[[ $says =~ ^($wanted)$ ]] || status=1
	printf '%-6s %-30s %10d %10d %18s %18s  %s\n' "$1" "$2" "$(stat -c %s "$base")" "$(stat -c %s "$overlay")" "$own" "$theirs" "$says"
}

printf '%-6s %-30s %10s %10s %18s %18s  %s\n' size input base overlay 'dtman s MB' 'fdtoverlay s MB' answers
mkdir "$work/example"
bin/dtman compile examples/board.dts "$work/example/base.dtb" --symbols
bin/dtman compile examples/hat.dts "$work/example/overlay.dtb" --symbols
row - example "$work/example"
[ $# -gt 0 ] || set -- small full
for size in "$@"; do
	inputs=bench/inputs/overlay-$size
	python3 bench/overlay/make_inputs.py "$inputs" "$size"
	for pair in "$inputs"/*/; do row "$size" "$(basename "$pair")" "${pair%/}"; done
done
exit "$status"
