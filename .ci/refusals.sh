#!/usr/bin/env bash
# Hostile surroundings: memory, threads and files that fail at each call in turn (.ci/refusals.py, by the shim .ci/refusals.c), files that
# can't take or give what is asked, and small stacks.
set -euo pipefail
cd "$(dirname "$0")/.."
root=$PWD
program=$root/bin/dtman
work=$(mktemp -d)
trap 'rm -rf "$work"' EXIT

if compiler=$(command -v clang || command -v gcc || command -v cc); then
	"$compiler" -std=c11 -O2 -Wall -Wextra -Werror -fPIC -shared -o "$work/refusals.so" .ci/refusals.c -ldl
	python3 .ci/refusals.py "$work/refusals.so"
else
	echo "refusals: neither clang nor gcc nor cc is here, so memory, threads and files were not made to fail" >&2
fi
cd "$work"

# fail WORD..: says what went wrong, and ends
fail() {
	echo "refusals: $*" >&2
	exit 1
}

# ends STATUS LINE WORD..: what the program must end with and say of a command line
ends() {
	local status=$1 line=$2 ended=0
	shift 2
	"$program" "$@" 2>told || ended=$?
	[ "$ended" = "$status" ] && [ "$(cat told)" = "$line" ] || fail "dtman $* ended with $ended and said: $(cat told)"
}

# silent STATUS LINE WORD..: that, and it must print nothing
silent() {
	ends "$@" >printed
	[ ! -s printed ] || fail "dtman ${*:3} printed something"
}

# same FILE FILE: the two hold the same bytes
same() {
	cmp -s "$1" "$2" || fail "$1 doesn't hold what $2 does"
}

cp "$root"/examples/{board.dts,sensor-board.dtb,sensor-board.drivers,planned.schedule} .
printf '/dts-v1/; / { ocp: ocp { }; };' >base.dts
printf '/dts-v1/; /plugin/; &ocp { d { r = <&e>; }; e: e { }; };' >overlay.dts
printf '/dts-v1/; / {' >wrong.dts
"$program" compile base.dts base.dtb --symbols
"$program" compile overlay.dts overlay.dtb
"$program" overlay base.dtb overlay.dtb both.dtb
"$program" compile board.dts board.dtb
"$program" plan sensor-board.dtb sensor-board.drivers >board.plan

# The commands that print.
printing=(
	"dump board.dtb"
	"plan sensor-board.dtb sensor-board.drivers"
	"replay board.plan planned.schedule"
	"probe sensor-board.dtb sensor-board.drivers"
	"explain 63"
	"--help"
	"--version"
)

# Outputs that take nothing: a full device, a pipe that nobody reads (which isn't told), closed standard output.
silent 3 "error 81 CannotWrite /dev/full" compile base.dts /dev/full
silent 3 "error 81 CannotWrite /dev/full" overlay base.dtb overlay.dtb /dev/full
mkfifo unread
exec 5<>unread 6>unread 5<&-
for words in "${printing[@]}"; do
	read -ra words <<<"$words"
	ends 3 "error 81 CannotWrite stdout" "${words[@]}" >/dev/full
	ends 3 "" "${words[@]}" >&6
	ends 3 "error 81 CannotWrite stdout" "${words[@]}" >&-
	ends 3 "error 81 CannotWrite stdout" "${words[@]}" <&- >&-
done
ends 3 "" compile base.dts - >&6
exec 6>&-
"$program" compile base.dts closed.dtb --symbols <&- >&- 2>&-
same closed.dtb base.dtb
ended=0
"$program" compile wrong.dts closed.dtb <&- >&- 2>&- || ended=$?
[ "$ended" = 1 ] || fail "with nothing open a wrong source ended with $ended"
same closed.dtb base.dtb

# A file that may hold 4 KB and no more: OUT holds what it held, or isn't there. What is told never gets into it. Where it has a
# second name it is written where it is, and holds a beginning of the bytes.
limited() (trap '' XFSZ && ulimit -f 4 && exec "$program" compile board.dts full.dtb)
full() {
	local ended=0
	limited 2>told || ended=$?
	[ "$ended" = 3 ] && [ "$(cat told)" = "error 81 CannotWrite full.dtb" ] || fail "a full file ended with $ended and: $(cat told)"
}
full
[ ! -e full.dtb ] || fail "a failed write made OUT"
cp base.dtb full.dtb
full
same full.dtb base.dtb
limited 2>&- && fail "a full file was written whole"
same full.dtb base.dtb
ln full.dtb second.dtb
full
same full.dtb <(head -c "$(stat -c %s full.dtb)" board.dtb)
same second.dtb full.dtb

# A new file takes the place of a regular OUT and has its rights; a link, a pipe, a file of two names and one in a folder that takes
# no new files are written where they are, and one that may not be written stays. A file that a killed program left is passed over.
cp base.dtb regular.dtb
chmod 640 regular.dtb
before=$(stat -c %i regular.dtb)
echo left >regular.dtb.0.part
silent 0 "" compile board.dts regular.dtb
same regular.dtb board.dtb
[ "$(stat -c %a regular.dtb)" = 640 ] && [ "$(stat -c %i regular.dtb)" != "$before" ] || fail "OUT wasn't replaced by a file with its rights"
[ "$(cat regular.dtb.0.part)" = left ] && rm regular.dtb.0.part || fail "a file beside OUT was taken for one of this run's"
ln -s linked.dtb link.dtb
silent 0 "" compile base.dts link.dtb --symbols
[ -L link.dtb ] && same linked.dtb base.dtb || fail "a link was replaced"
ln linked.dtb second-linked.dtb
silent 0 "" compile board.dts linked.dtb
same second-linked.dtb board.dtb
mkfifo out.pipe
cat out.pipe >piped.dtb &
silent 0 "" compile base.dts out.pipe --symbols
wait
same piped.dtb base.dtb
mkdir closed-folder
cp board.dtb closed-folder/out.dtb
chmod 555 closed-folder
silent 0 "" compile base.dts closed-folder/out.dtb --symbols
same closed-folder/out.dtb base.dtb
if [ "$(id -u)" != 0 ]; then
	chmod 444 regular.dtb
	silent 3 "error 81 CannotWrite regular.dtb" compile base.dts regular.dtb
	same regular.dtb board.dtb
fi

# OUT is an input: it is read whole before it is written, and stays where the input is refused.
cp base.dts taken
silent 0 "" compile taken taken --symbols
same taken base.dtb
for place in 1 2; do
	cp base.dtb taken-1
	cp overlay.dtb taken-2
	silent 0 "" overlay taken-1 taken-2 "taken-$place"
	same "taken-$place" both.dtb
done
cp wrong.dts taken
silent 1 "error 10 Syntax line 1" compile taken taken
same taken wrong.dts
cp base.dtb taken
silent 1 "error 40 NotOverlay" overlay taken base.dtb taken
silent 1 "error 40 NotOverlay" overlay base.dtb taken taken
same taken base.dtb

# OUT in a folder that isn't there, that is a file, that takes no files, or that is OUT itself.
mkdir shut folder
chmod 555 shut
places=(none/out.dtb base.dts/out.dtb /proc/out.dtb folder "")
# The rights of a file don't bind root.
[ "$(id -u)" = 0 ] || places+=(shut/out.dtb)
for out in "${places[@]}"; do
	silent 3 "error 81 CannotWrite $out" compile base.dts "$out"
	silent 3 "error 81 CannotWrite $out" overlay base.dtb overlay.dtb "$out"
done

# Inputs that aren't there, that are a folder, that come in two parts, and that have no end.
for input in none folder base.dts/none; do
	silent 3 "error 80 CannotRead $input" compile "$input" none.dtb
	silent 3 "error 80 CannotRead $input" overlay base.dtb "$input" none.dtb
	silent 3 "error 80 CannotRead $input" dump "$input"
	silent 3 "error 80 CannotRead $input" plan base.dtb "$input"
	silent 3 "error 80 CannotRead $input" probe "$input" none
	silent 3 "error 80 CannotRead $input" replay board.plan "$input"
done

# Standard input and standard output as paths: what the files of these names give. A file named - is written ./-.
"$program" compile - - --symbols <base.dts >dashed
same dashed base.dtb
"$program" overlay base.dtb - - <overlay.dtb >dashed
same dashed both.dtb
cp base.dts ./-
silent 0 "" compile ./- dashed --symbols </dev/null
same dashed base.dtb
silent 0 "" compile base.dts ./- --symbols
same ./- base.dtb
cat board.plan | "$program" replay - planned.schedule >dashed
same dashed <("$program" replay board.plan planned.schedule)
silent 1 "error 10 Syntax line 1" compile - dashed </dev/null
silent 3 "error 80 CannotRead stdin" dump - <&-
silent 3 "error 80 CannotRead stdin" dump - <folder
silent 1 "error 38 TooLarge" dump - </dev/zero
silent 3 "error 82 FileTooLong stdin" plan base.dtb - </dev/zero
mkfifo parts
{ head -c 7 base.dts && sleep 0.2 && tail -c +8 base.dts; } >parts &
silent 0 "" compile parts parts.dtb --symbols
same parts.dtb base.dtb
wait
silent 1 "error 17 TooLong line 1" compile /dev/zero none.dtb
silent 1 "error 38 TooLarge" dump /dev/zero
silent 3 "error 82 FileTooLong /dev/zero" replay /dev/zero planned.schedule
[ ! -e none.dtb ] || fail "a refused compile or overlay made its OUT"
[ -z "$(find . -name '*.part')" ] || fail "a file was left beside OUT: $(find . -name '*.part')"
echo "refusals of places: full, closed, unread, missing and endless ones are told, and a refused OUT is as it was"

cd "$root"
python3 bench/stack/needs.py check
echo "stacks: the deepest inputs take at most 256 KB of stack in compile, 512 KB in probe, and 96 KB in the other commands"
