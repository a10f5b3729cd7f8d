#!/usr/bin/env bash
# Compiles the weather station as kernels compile their boards: several files through the C preprocessor, whose line markers stay
# in the text. `dtman` and `dtc` (a Debian package: device-tree-compiler) give the same bytes. With symbols they give the same
# lines: the symbols stand in order of definition here, and node by node there.
set -euo pipefail
cd "$(dirname "$0")/../.."
work=$(mktemp -d)
trap 'rm -rf "$work"' EXIT
cpp -undef -x assembler-with-cpp -nostdinc -I examples/weather-station examples/weather-station/weather-station.dts "$work/board.dts"
bin/dtman compile "$work/board.dts" "$work/board.dtb"
bin/dtman compile "$work/board.dts" "$work/symbols.dtb" --symbols
if ! command -v dtc >/dev/null; then
	echo "dtc isn't installed: $(stat -c %s "$work/board.dtb") bytes, with symbols $(stat -c %s "$work/symbols.dtb")"
	exit
fi
dtc -q -I dts -O dtb -o "$work/dtc.dtb" "$work/board.dts"
dtc -q -@ -I dts -O dtb -o "$work/dtc-symbols.dtb" "$work/board.dts"
cmp "$work/board.dtb" "$work/dtc.dtb"
diff <(bin/dtman dump "$work/symbols.dtb" | sort) <(bin/dtman dump "$work/dtc-symbols.dtb" | sort)
echo "without symbols the same $(stat -c %s "$work/board.dtb") bytes, with symbols the same lines"
