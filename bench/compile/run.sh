#!/usr/bin/env bash
# Times `dtman compile` on sources of 2 and 16 MB, beside dtc where it is installed (a minute for each), with the most memory taken.
set -euo pipefail
cd "$(dirname "$0")/../.."
make build
out=$(mktemp)
trap 'rm -f "$out"' EXIT

# The least of three runs in seconds, and the most memory in MB; `-` where the command failed or took over a minute.
measured() {
	for _ in 1 2 3; do
		/usr/bin/env python3 bench/compile/measured.py "$@" || break
	done | sort -n | head -1
}

printf '%-4s %-20s %18s %18s\n' MB input 'dtman s MB' 'dtc s MB'
for size in 2 16; do
	inputs=bench/inputs/compile-$size
	[ -d "$inputs" ] || python3 bench/compile/make_inputs.py "$inputs" "$size"
	for source in "$inputs"/*.dts; do
		own=$(measured bin/dtman compile "$source" "$out")
		dtc=-
		if command -v dtc >/dev/null; then dtc=$(measured dtc -q -I dts -O dtb -o "$out" "$source"); fi
		printf '%-4s %-20s %18s %18s\n' "$size" "$(basename "$source" .dts)" "${own:--}" "${dtc:--}"
	done
done
