#!/usr/bin/env bash
# Times `dtman replay` on plans of 512 devices and schedules of 1,000,000 events, and prints for each shape of plan the
# time of the whole command, the time of reading alone, and the events and begin/finish pairs a second of the rest.
set -euo pipefail
cd "$(dirname "$0")/../.."
inputs=bench/inputs/replay
[ -f "$inputs/random-read.schedule" ] || python3 bench/replay/make_inputs.py "$inputs"
make build

# The least time of five runs, in seconds.
least() {
    for _ in 1 2 3 4 5; do
        local begin end
        begin=$(date +%s.%N)
        bin/dtman replay "$1" "$2" >/dev/null 2>&1 || true
        end=$(date +%s.%N)
        awk -v b="$begin" -v e="$end" 'BEGIN { printf "%.4f\n", e - b }'
    done | sort -n | head -1
}

for shape in chain fan-out fan-in random; do
    whole=$(least "$inputs/$shape.plan" "$inputs/$shape.schedule")
    reading=$(least "$inputs/$shape.plan" "$inputs/$shape-read.schedule")
    awk -v s="$shape" -v w="$whole" -v r="$reading" 'BEGIN {
        rest = w - r
        if (rest <= 0) rest = 0.0001
        printf "replay %s: %.3f s, of which reading %.3f s; %.1f million events a second in all, %.1f million without reading (%.1f million pairs)\n",
            s, w, r, 1 / w, 1 / rest, 0.5 / rest
    }'
done
