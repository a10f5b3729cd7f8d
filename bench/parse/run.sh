#!/usr/bin/env bash
# Times `parse` on each input, with the memory it took and its answer.
set -euo pipefail
cd "$(dirname "$0")/../.."
inputs=bench/inputs/parse
[ -f "$inputs/board.dts" ] || python3 bench/parse/make_inputs.py "$inputs"
program=$(bench/build)
for source in "$inputs"/*.dts; do
	printf '%-13s ' "$(basename "$source" .dts)"
	/usr/bin/time -f '%e s %M KB' "$program" parse "$source" 2>&1 | paste -sd ' '
done
