#!/usr/bin/env bash
# Installs what bin/ has into a folder, and tries it there: the pages, as mandoc shows them, against --help, the completions in their shells, the C
# examples, what stays after `make uninstall`, the tar ball and the Debian package. Where a tool isn't there, it says what wasn't tried.
set -euo pipefail
cd "$(dirname "$0")/.."
root=$PWD
work=$(mktemp -d)
trap 'rm -rf "$work"' EXIT

# fail WORD..: says what went wrong, and ends
fail() {
	echo "install: $*" >&2
	exit 1
}

# has TOOL WHAT: whether a tool is there; else it says what isn't tried
has() {
	command -v "$1" >/dev/null && return
	echo "install: $1 isn't here, so $2" >&2
	return 1
}

make -s install PREFIX=/usr DESTDIR="$work"
for page in "$work"/usr/share/man/man1/dtman*.1; do
	words=$(basename "$page" .1 | tr - ' ')
	# shellcheck disable=SC2086
	bin/$words --help | awk 'length > 80 { exit 1 }' || fail "$words --help has a line of more than 80 columns"
done

try_pages() {
	local page said name section
	python3 .ci/pages.py "$work/usr/share/man"
	cd "$work/usr/share/man"
	for page in man?/*; do
		# mandoc looks for pages that are named where this machine keeps its own
		said=$(mandoc -T lint "$page" | grep -v 'referenced manual not found: Xr dtman' || true)
		[ -z "$said" ] || fail "$said"
		while read -r name section; do
			[ -e "man$section/$name.$section" ] || fail "$page names $name($section), which isn't there"
		done < <(sed -n 's/^\.\(It \)\?Xr \([^ ]*\) \([0-9]\).*/\2 \3/p' "$page")
		! has man "pages aren't shown" || said=$(MANWIDTH=80 man --warnings -l "$page" 2>&1 >/dev/null)
		[ -z "$said" ] || fail "$said"
	done
	echo "pages: $(find . -type f | wc -l), of which mandoc has nothing to say"
}
if has mandoc "man pages aren't looked at"; then (try_pages); fi

# What each shell offers behind a line, in a folder with a file of each kind.
mkdir "$work/folder" "$work/folder/sub"
cd "$work/folder"
touch board.dts board.dtb hat.dtbo board.drivers board.plan boot.schedule boot.log README
# The line, and what is offered; folders are offered beside files.
offers="
c|check compile cpp
compile |board.dts sub
compile board.dts |board.dtb hat.dtbo sub
compile --s|--symbols
compile --d|--define --depfile --dtc
compile --dtc -i |sub
compile --dtc -i sub -i sub |board.dts sub
compile -I |sub
cpp |board.dts sub
fmt |board.dts sub
fmt --out |board.dts sub
lsp -I |sub
set --out |board.dtb hat.dtbo sub
dtc --sy|--symbols
dtc -o out.dtb -p 8 |board.dtb board.dts hat.dtbo sub
fdtoverlay -i |board.dtb hat.dtbo sub
fdtget -p |board.dtb hat.dtbo sub
overlay board.dtb |board.dtb hat.dtbo sub
plan board.dtb |board.drivers sub
plan --dot |board.dtb hat.dtbo sub
replay board.plan --workers 4 |boot.schedule sub
probe board.dtb board.drivers --w|--without --workers
why board.dtb |board.drivers sub
trace |boot.log sub
check |board.dtb board.dts hat.dtbo sub
check board.dts |board.dtb board.dts hat.dtbo sub
check --k|--known
explain 6|60 61 62 63 64 65 66 67
"

bash_offers() {
	# shellcheck source=/dev/null
	. "$work/usr/share/bash-completion/completions/dtman"
	read -ra COMP_WORDS <<<"dtman $1"
	[[ $1 != *" " ]] || COMP_WORDS+=("")
	COMP_CWORD=$((${#COMP_WORDS[@]} - 1))
	_dtman
	printf '%s\n' "${COMPREPLY[@]}"
}

zsh_offers() {
	zsh -f "$root/.ci/offers.zsh" "$work/usr/share/zsh/site-functions" "dtman $1"
}

fish_offers() {
	fish -c "source '$work/usr/share/fish/vendor_completions.d/dtman.fish'; complete -C 'dtman $1'" | cut -f1
}

for shell in bash zsh fish; do
	has "$shell" "its completions aren't tried" || continue
	while IFS='|' read -r line wanted; do
		[ -n "$line" ] || continue
		offered=$("${shell}_offers" "$line" | sed 's|/$||' | LC_ALL=C sort -u | tr '\n' ' ')
		[ "$offered" = "$wanted " ] || fail "$shell offers '$offered' behind 'dtman $line', and not '$wanted'"
	done <<<"$offers"
	echo "completions: $shell offers commands, options and files as it should"
done
cd "$root"

# The C examples, over what was installed. `.ci/library.sh` tries more of them.
try_c() {
	local built=$work/c
	cp -r examples/c "$built"
	export PKG_CONFIG_PATH=$work/usr/lib/pkgconfig
	make -s -C "$built" LIBRARY=installed CC="$1"
	"$built/calls" | diff examples/c/calls.txt - || fail "examples/c/calls says something else"
	for name in board hat; do bin/dtman compile "examples/$name.dts" "$built/$name.dtb" --symbols; done
	"$built/overlay" "$built/board.dtb" "$built/hat.dtb" "$built/overlaid.dtb" >/dev/null
	"$built/boot" "$built/overlaid.dtb" 0x40000000 quiet 0x88000000 0x400000 "$built/out.dtb" | tail -1 >"$built/said"
	[ "$(cat "$built/said")" = 'arguments: quiet' ] || fail "boot says $(cat "$built/said")"
	bin/dtman dump "$built/out.dtb" | grep -q 'bootargs = "quiet";' || fail "boot wrote something else"
	rm -rf "$built"
	echo "C: the examples do what they should over what was installed, built by $1"
}
if [ ! -e bin/libdtman.a ]; then
	echo "install: bin/libdtman.a isn't here, so the C examples aren't tried" >&2
elif has pkg-config "the C examples aren't tried"; then
	! has cc "the C examples aren't built" || try_c cc
fi

make -s uninstall PREFIX=/usr DESTDIR="$work"
left=$(find "$work/usr" -type f)
[ -z "$left" ] || fail "make uninstall leaves $left"

# What is packed.
make -s dist >/dev/null
(cd out/dist && for sum in *.tar.gz.sha256; do sha256sum -c --quiet "$sum"; done)
tar -C "$work" -xzf out/dist/dtman-*.tar.gz --strip-components=1
(cd "$work" && sha256sum -c --quiet SHA256SUMS) || fail "the tar ball's files aren't those of SHA256SUMS"
"$work/bin/dtman" explain 63 | cmp - <(bin/dtman explain 63)
if has dpkg-deb "no Debian package is made" && has objdump "no Debian package is made"; then
	package=$(make -s deb)
	dpkg-deb -x "$package" "$work/package"
	"$work/package/usr/bin/dtman" explain 63 | cmp - <(bin/dtman explain 63)
	! has lintian "the Debian package isn't looked at" || lintian --allow-root --fail-on error,warning "$package" || fail "lintian has something to say"
fi
echo "install: what was installed works, is gone again, and is packed"
