#!/usr/bin/env bash
# Changes blobs at random by the view's library and by libfdt side by side, and compares them behind each change: changes.sh BLOB.. It wants
# bin/libdtman_view.a and libfdt-dev.
set -euo pipefail
cd "$(dirname "$0")/../.."
archive=${ARCHIVE:-bin/libdtman_view.a}
work=$(mktemp -d)
trap 'rm -rf "$work"' EXIT
"${CC:-cc}" -std=c11 -D_POSIX_C_SOURCE=200809L -O1 -g -fsanitize=address,undefined -Wall -Wextra -Iinstall -o "$work/changes" bench/view/changes.c -l:libfdt.a "$archive"
for blob in "$@"; do "$work/changes" "$blob" "${COUNT:-2000}"; done
