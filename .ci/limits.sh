#!/usr/bin/env bash
# The inputs that are too great for a test: each is refused by its number, and nothing is printed. What --verbose tells of them, and of
# files that can't be read or written, is what `explain` says.
set -euo pipefail
cd "$(dirname "$0")/.."
work=$(mktemp -d)
trap 'rm -rf "$work"' EXIT

# refused STATUS LINE WORD..: what the program must end with and say of a command line
refused() {
	local status=$1 line=$2 ended=0
	shift 2
	bin/dtman "$@" >"$work/out" 2>"$work/told" || ended=$?
	[ "$ended" = "$status" ] && [ "$(cat "$work/told")" = "$line" ] && [ ! -s "$work/out" ] && return
	echo "dtman $* ended with $ended and said: $(cat "$work/told")" >&2
	exit 1
}

# example NUMBER NAME PATH: what `explain` says that --verbose tells, of the file at the path in place of the name
example() {
	bin/dtman explain "$1" | sed -n "/^error $1 /,\$p" | sed "s|\b$2\b|$3|g"
}

head -c 16777217 /dev/zero | tr '\0' ' ' >"$work/blanks.dts"
truncate -s 268435457 "$work/great"
echo '/a x ok' >"$work/one.plan"
{ seq 500000 | sed 's/.*/begin \/a\nabandon \/a/'; echo 'begin /a'; } >"$work/long.schedule"

refused 1 'error 17 TooLong line 1' compile "$work/blanks.dts" "$work/none.dtb"
refused 1 'error 17 TooLong' compile --dtc "$work/blanks.dts" "$work/none.dtb"
refused 1 'error 38 TooLarge' dump "$work/great"
refused 1 'error 65 TooManyEvents event 1000001' replay "$work/one.plan" "$work/long.schedule"
refused 3 "error 82 FileTooLong $work/great" replay "$work/great" "$work/long.schedule"
refused 1 "$(example 17 IN "$work/blanks.dts")" compile "$work/blanks.dts" "$work/none.dtb" -v
refused 1 "$(example 38 IN "$work/great")" dump "$work/great" -v
refused 1 "$(example 65 SCHEDULE "$work/long.schedule")" replay "$work/one.plan" "$work/long.schedule" -v
refused 3 "$(example 82 IN "$work/great")" replay "$work/great" "$work/long.schedule" -v
refused 3 "$(example 80 IN "$work/nix")" dump "$work/nix" -v
refused 3 "error 81 CannotWrite $work/nix/none.dtb
$work/nix/none.dtb: No such file or directory (os error 2)" compile examples/board.dts "$work/nix/none.dtb" -v
ended=0
bin/dtman -v explain 10 >&- 2>"$work/told" || ended=$?
[ "$ended $(cat "$work/told")" = "3 $(example 81 IN IN)" ] || { echo "with standard output closed it ended with $ended and said: $(cat "$work/told")" >&2; exit 1; }
[ ! -e "$work/none.dtb" ]
echo "limits: 17, 38, 65 and 80 to 82 are told"
