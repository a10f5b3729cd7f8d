#!/usr/bin/env bash
# Times `read` and `write`, and `read` alone, on the inputs of bench/dump, each with the memory it took.
set -euo pipefail
cd "$(dirname "$0")/../.."
inputs=bench/inputs/dump
python3 bench/dump/make_inputs.py "$inputs"
program=$(bench/build)

# What the program answers, with its seconds and its memory.
timed() {
	/usr/bin/time -f '%e s %M KB' timeout 600 "$program" "$@" 2>&1 | paste -sd ' '
}

printf '%-12s %-36s %s\n' input 'read and write' 'read alone'
for blob in "$inputs"/*.dtb; do
	printf '%-12s %-36s %s\n' "$(basename "$blob" .dtb)" "$(timed write "$blob")" "$(timed read "$blob")"
done
