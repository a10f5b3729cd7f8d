#!/usr/bin/env bash
# Times an overlay over malloc and over an arena: run.sh OVERLAY BLOB.., over bin/libdtman.a and bin/libdtman_arena.a. A line a blob: its bytes with
# the overlay's, the most taken of the arena and the least arena that is enough, each as a multiple, and the milliseconds over malloc, over an
# ample arena, and over the least.
set -euo pipefail
root=$(cd "$(dirname "$0")/../.." && pwd)
work=$(mktemp -d)
trap 'rm -rf "$work"' EXIT
for way in malloc arena; do
	[ $way = malloc ] && archive=libdtman.a flags=-DMALLOC || archive=libdtman_arena.a flags=
	cc -std=c11 -D_POSIX_C_SOURCE=200809L -O2 $flags -I"$root/install" -o "$work/$way" "$root/bench/arena/overlay.c" "$root/bin/$archive"
done
overlay=$1
shift
for blob in "$@"; do
	read -r bytes took < <("$work/malloc" "$blob" "$overlay")
	read -r _ most least ample scarce < <("$work/arena" "$blob" "$overlay")
	awk -v n="$(basename "$blob")" -v b="$bytes" -v m="$most" -v l="$least" -v t="$took" -v a="$ample" -v s="$scarce" \
		'BEGIN { printf "%s: %d bytes, %.1f taken, %.1f enough, %.2f ms, %.2f ms, %.2f ms\n", n, b, m / b, l / b, t, a, s }'
done
