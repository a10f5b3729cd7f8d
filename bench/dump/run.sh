#!/usr/bin/env bash
# Times `dtman dump` on each input, beside `dtc -I dtb -O dts` where dtc is installed.
set -euo pipefail
cd "$(dirname "$0")/../.."
inputs=bench/inputs/dump
python3 bench/dump/make_inputs.py "$inputs"
make build

seconds() {
	local begin end
	begin=$(date +%s.%N)
	timeout 600 "$@" >/dev/null 2>&1 || { echo failed; return; }
	end=$(date +%s.%N)
	awk -v b="$begin" -v e="$end" 'BEGIN { printf "%.3f", e - b }'
}

printf '%-12s %12s %10s %10s\n' input bytes dtman dtc
for blob in "$inputs"/*.dtb; do
	theirs=-
	if command -v dtc >/dev/null; then theirs=$(seconds dtc -q -I dtb -O dts "$blob"); fi
	printf '%-12s %12d %10s %10s\n' "$(basename "$blob" .dtb)" "$(stat -c %s "$blob")" "$(seconds bin/dtman dump "$blob")" "$theirs"
done
