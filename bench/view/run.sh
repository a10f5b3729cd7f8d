#!/usr/bin/env bash
# Times the view beside libfdt on blobs: run.sh BLOB.. It wants the library (bin/libdtman_view.a, by `make library`) and libfdt-dev.
set -euo pipefail
cd "$(dirname "$0")/../.."
archive=${ARCHIVE:-bin/libdtman_view.a}
work=$(mktemp -d)
trap 'rm -rf "$work"' EXIT
"${CC:-cc}" -std=c11 -D_POSIX_C_SOURCE=200809L -O2 -Wall -Wextra -Iinstall -o "$work/view" bench/view/view.c -l:libfdt.a "$archive"
for blob in "$@"; do
	echo "$blob"
	"$work/view" "$blob"
done
