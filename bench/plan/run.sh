#!/usr/bin/env bash
# Times `dtman plan` on each input: the least of five runs, beside `dtman dump` of the same blob, which reads it and prints it.
set -euo pipefail
cd "$(dirname "$0")/../.."
inputs=bench/inputs/plan
python3 bench/plan/make_inputs.py "$inputs"
make build

least() {
	for _ in 1 2 3 4 5; do
		local begin end
		begin=$(date +%s.%N)
		"$@" >/dev/null || { echo "$* failed" >&2; exit 1; }
		end=$(date +%s.%N)
		awk -v b="$begin" -v e="$end" 'BEGIN { printf "%.4f\n", e - b }'
	done | sort -n | head -1
}

printf '%-12s %12s %12s %10s %10s\n' input 'blob bytes' 'file bytes' plan dump
for blob in "$inputs"/*.dtb; do
	drivers=${blob%.dtb}.drivers
	printf '%-12s %12d %12d %10s %10s\n' "$(basename "$blob" .dtb)" "$(stat -c %s "$blob")" "$(stat -c %s "$drivers")" \
		"$(least bin/dtman plan "$blob" "$drivers")" "$(least bin/dtman dump "$blob")"
done
