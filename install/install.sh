#!/usr/bin/env bash
# install.sh install|uninstall|dist|deb: puts what bin/ has where it belongs (PREFIX, DESTDIR), takes it away, or packs it into out/dist.
# Where bin/ has no proved program it stops. Nothing here needs the toolchain.
set -euo pipefail
cd "$(dirname "$0")/.."
prefix=${PREFIX-/usr/local}
root=${DESTDIR:-}
# Debian's zsh looks for what packages bring elsewhere.
zsh_folder=${ZSH_FOLDER:-share/zsh/site-functions}
# So do its compilers, in a folder for each kind of machine.
library_folder=${LIBRARY_FOLDER:-lib}
# The library of libfdt's names stands in a folder of its own, and only where it is asked for: no linker finds it there by itself.
libfdt_folder=$library_folder/dtman-libfdt

# A line for each file that is installed: its mode, where it comes from, where it goes to below the prefix.
listed() {
	local file
	echo 755 bin/dtman bin/dtman
	for file in out/pages/man?/*; do
		[[ $file != */man3/* || -e bin/libdtman.a ]] || continue
		echo 644 "$file" "share/man/${file#out/pages/}"
	done
	echo 644 out/pages/bash/dtman share/bash-completion/completions/dtman
	echo 644 out/pages/zsh/_dtman "$zsh_folder/_dtman"
	echo 644 out/pages/fish/dtman.fish share/fish/vendor_completions.d/dtman.fish
	if [ -e bin/libdtman.a ]; then
		echo 644 bin/libdtman.a "$library_folder/libdtman.a"
		echo 644 install/dtman.h include/dtman.h
		echo 644 bin/libdtman_arena.a "$library_folder/libdtman_arena.a"
		echo 644 install/dtman_arena.h include/dtman_arena.h
		echo 644 bin/libdtman_view.a "$library_folder/libdtman_view.a"
		echo 644 install/dtman_view.h include/dtman_view.h
		echo 644 out/pages/dtman.pc "$library_folder/pkgconfig/dtman.pc"
		echo 644 out/pages/dtman_arena.pc "$library_folder/pkgconfig/dtman_arena.pc"
		for file in examples/c/Makefile examples/c/*.{c,h,dts,txt,md}; do echo 644 "$file" "share/doc/dtman/examples/c/${file##*/}"; done
	fi
	if [ -n "${LIBFDT:-}" ] && [ -e bin/libfdt/libfdt.so.1 ]; then
		echo 644 bin/libfdt/libfdt.a "$libfdt_folder/libfdt.a"
		echo 644 bin/libfdt/libfdt.so.1 "$libfdt_folder/libfdt.so.1"
		echo 644 docs/libfdt.md share/doc/dtman/libfdt.md
	fi
	for file in README.md CHANGELOG.md docs/{commands,errors,promises,status}.md; do echo 644 "$file" "share/doc/dtman/${file##*/}"; done
	for file in examples/*.{dts,dtb,drivers,plan,schedule}; do echo 644 "$file" "share/doc/dtman/examples/${file##*/}"; done
}

# A proved program says by which logic, in its section .comment; what `rt try` makes of one doesn't.
wants_proof() {
	grep -aqs 'rattle logic=' bin/dtman && return
	echo "install: bin/dtman isn't a proved program; \`make build\` makes one" >&2
	exit 1
}

# What the program says is its version.
version() {
	bin/dtman --version | cut -d ' ' -f 2
}

# The pages and completions are made of what the program prints by --help, anew, since they are made in a moment.
make_pages() {
	rm -rf out/pages
	python3 install/pages.py bin/dtman out/pages
	make_configuration dtman "devicetree compiler and probing core over the caller's bytes"
	make_configuration dtman_arena "the same over memory of the caller's"
}

# make_configuration NAME WHAT: what pkg-config tells of the library
make_configuration() {
	cat >"out/pages/$1.pc" <<END
prefix=\${pcfiledir}/$(sed 's#[^/]*#..#g' <<<"$library_folder/pkgconfig")
Name: $1
Description: $2
Version: $(version)
Cflags: -I\${prefix}/include
Libs: -L\${prefix}/$library_folder -ldtman_view -l$1
END
}

put() {
	local mode source target
	wants_proof
	make_pages
	[ -e bin/libdtman.a ] || echo "install: bin/libdtman.a isn't there, so the C library is left out" >&2
	[ -z "${LIBFDT:-}" ] || [ -e bin/libfdt/libfdt.so.1 ] || echo "install: bin/libfdt isn't there, so the library of libfdt's names is left out" >&2
	listed | while read -r mode source target; do install -D -m "$mode" "$source" "$root$prefix/$target"; done
}

take_away() {
	local target
	listed | while read -r _ _ target; do rm -f "$root$prefix/$target"; done
	rm -f "$root$prefix"/share/man/{man1/dtman{,-*}.1,man3/libdtman.3,man5/dtman-plan.5}
	rm -f "$root$prefix"/{"$library_folder"/libdtman{,_arena,_view}.a,include/dtman{,_arena,_view}.h,"$library_folder"/pkgconfig/dtman{,_arena}.pc}
	rm -rf "$root$prefix/share/doc/dtman" "$root$prefix/${libfdt_folder:?}"
}

# A tar ball that unpacks to bin/, lib/, include/ and share/, and its checksum. The same files give the same bytes.
dist() {
	local name stage
	name=dtman-$(version)-$(uname -m)-$(uname -s | tr '[:upper:]' '[:lower:]')
	stage=$(mktemp -d)
	PREFIX='' DESTDIR=$stage/$name "$0" install
	(cd "$stage/$name" && find . -type f ! -name SHA256SUMS -printf '%P\n' | LC_ALL=C sort | xargs sha256sum >SHA256SUMS)
	mkdir -p out/dist
	tar -C "$stage" --sort=name --mtime=@0 --owner=0 --group=0 --numeric-owner -cf - "$name" | gzip -9n >"out/dist/$name.tar.gz"
	(cd out/dist && sha256sum "$name.tar.gz" >"$name.tar.gz.sha256")
	rm -rf "$stage"
	echo "out/dist/$name.tar.gz"
}

# The oldest C library that has what the program asks of it.
needed_libc() {
	objdump -T bin/dtman | grep -o 'GLIBC_[0-9.]*' | sed 's/GLIBC_//' | sort -uV | tail -1
}

# A Debian package. Its maintainer is MAINTAINER, or who git says commits here.
deb() {
	local arch stage doc name libraries version
	version=$(version)
	libraries=lib/$(uname -m)-linux-gnu
	arch=$(dpkg --print-architecture)
	stage=$(mktemp -d)
	name=out/dist/dtman_${version}_$arch.deb
	PREFIX=/usr DESTDIR=$stage ZSH_FOLDER=share/zsh/vendor-completions LIBRARY_FOLDER=$libraries "$0" install
	doc=$stage/usr/share/doc/dtman
	mv "$doc/CHANGELOG.md" "$doc/NEWS.md"
	strip --strip-unneeded -R .comment -R .note "$stage/usr/bin/dtman"
	[ ! -e "$stage/usr/$libraries/libdtman.a" ] || strip --strip-debug -R .comment -R .note "$stage/usr/$libraries"/libdtman{,_arena}.a
	find "$stage/usr/share/man" -type f -exec gzip -9n {} +
	debian_words "$stage" "$arch" "${MAINTAINER:-$(git log -1 --format='%an <%ae>')}"
	gzip -9n "$doc/NEWS.md" "$doc"/{README,commands,errors,promises,status}.md "$doc/changelog"
	(cd "$stage" && find usr -type f -print0 | LC_ALL=C sort -z | xargs -0 md5sum >DEBIAN/md5sums)
	chmod -R u=rwX,go=rX "$stage"
	mkdir -p out/dist
	dpkg-deb --root-owner-group -Zxz --build "$stage" "$name" >/dev/null
	rm -rf "$stage"
	echo "$name"
}

# What Debian wants to know of the package.
debian_words() {
	local stage=$1 arch=$2 maintainer=$3 library=
	[ ! -e bin/libdtman.a ] || library="
 .
 The C library libdtman.a, with its header, pages and examples, does the same
 over bytes of its caller."
	mkdir -p "$stage/DEBIAN"
	cat >"$stage/DEBIAN/control" <<END
Package: dtman
Version: $version
Architecture: $arch
Maintainer: $maintainer
Installed-Size: $(du -ks --exclude=DEBIAN "$stage" | cut -f1)
Depends: libc6 (>= $(needed_libc))
Section: devel
Priority: optional
Description: devicetree compiler and driver-binding manager
 dtman compiles devicetree sources to blobs, applies overlays, prints blobs as
 canonical sources, plans the devices of a blob, replays schedules of probe
 events over plans, and binds the devices of a board by several threads. As
 "dtman dtc" and "dtman fdtoverlay" it takes the words of these programs.
 Manual pages and completions for bash, zsh and fish come along.$library
 .
 Each function of the program was proved to meet its contract before it was
 built; promises.md.gz in /usr/share/doc/dtman says what is promised.
END
	cat >"$stage/usr/share/doc/dtman/copyright" <<END
Format: https://www.debian.org/doc/packaging-manuals/copyright-format/1.0/
Upstream-Name: dtman

Files: *
Copyright: 2026 the authors of dtman
License: unstated
 The repository states no licence.
END
	cat >"$stage/usr/share/doc/dtman/changelog" <<END
dtman ($version) unstable; urgency=medium

  * What users see of each version stands in NEWS.md.

 -- $maintainer  $(date -R -d "@$(git log -1 --format=%ct)")
END
}

case ${1:-} in
install) put ;;
uninstall) take_away ;;
dist) dist ;;
deb) deb ;;
*)
	echo "install.sh knows install, uninstall, dist and deb" >&2
	exit 2
	;;
esac
