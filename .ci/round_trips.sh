#!/usr/bin/env bash
# Each blob in examples/ is printed and compiled again, and comes back byte for byte; and the sensor board's files are one board.
set -euo pipefail
cd "$(dirname "$0")/.."
work=$(mktemp -d)
trap 'rm -rf "$work"' EXIT
count=0
for blob in examples/*.dtb; do
	bin/dtman dump "$blob" >"$work/board.dts"
	bin/dtman compile "$work/board.dts" "$work/board.dtb"
	cmp "$blob" "$work/board.dtb"
	count=$((count + 1))
done
echo "examples: $count blobs come back byte for byte"
bin/dtman dump examples/sensor-board.dtb | cmp - examples/sensor-board.dts
python3 examples/make_sensor_board.py "$work/made.dtb"
cmp "$work/made.dtb" examples/sensor-board.dtb
echo "examples: the sensor board's blob and source are one"
bin/dtman plan examples/sensor-board.dtb examples/sensor-board.drivers >"$work/planned.plan"
bin/dtman replay "$work/planned.plan" examples/planned.schedule >/dev/null
echo "examples: the sensor board's plan is replayed"
