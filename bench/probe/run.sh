#!/usr/bin/env bash
# Times runs of the plans of make_inputs.py by 1 to 64 workers. With the word `often` it runs each plan 1,000 times by 2
# and by 64 workers instead, and says whether each run ended, with one report.
set -euo pipefail
cd "$(dirname "$0")/../.."
inputs=bench/inputs/probe
python3 bench/probe/make_inputs.py "$inputs"
program=$(bench/build probe)
if [ "${1:-}" != often ]; then
	exec python3 bench/probe/measure.py "$program" "$inputs"
fi
for plan in "$inputs"/*.plan; do
	for workers in 2 64; do
		for way in "" locked; do
			printf '%-10s by %2d %-6s %s\n' "$(basename "$plan" .plan)" "$workers" "$way:" "$(timeout 600 "$program" "$plan" "$workers" 1000 0 $way || echo 'did not end')"
		done
	done
done
