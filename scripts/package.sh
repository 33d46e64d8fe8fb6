#!/usr/bin/env bash
# Makes two packages of what was built: lexp_VERSION-1_ARCHITECTURE.deb for Debian and its like, and lex-VERSION-linux-MACHINE.tar.gz.
#
#     scripts/package.sh [FOLDER]     the folder for both: out/package by default
#
# Both have the files of scripts/install.sh, without names for debuggers, and the program lex is called lexp in both. For Debian's flex has
# the file /usr/bin/lex. It is no alternative of update-alternatives, so no other package may have or change it; and make's own rule for .l
# files needs it to be flex's. The archive can be unpacked anywhere: lex.pc in it goes by its own place.
#
# What a package needs is read from its programs by dpkg-shlibdeps. The same tree gives the same bytes: times are that of the commit, or
# SOURCE_DATE_EPOCH where it is set. DEBFULLNAME and DEBEMAIL name who makes the package. It needs dpkg-dev, binutils and a C compiler.
set -euo pipefail
export LC_ALL=C DPKG_DEB_THREADS_MAX=1
umask 022
top=$(cd "$(dirname "$0")/.." && pwd)
work=$(mktemp -d)
trap 'rm -rf "$work"' EXIT
debian=$work/debian

refuse() {
    echo "package.sh: $*" >&2
    exit 1
}

# The time that all files have, in seconds.
read_time() {
    export SOURCE_DATE_EPOCH=${SOURCE_DATE_EPOCH:-$(git -C "$top" log -1 --format=%ct 2> /dev/null)}
    [[ $SOURCE_DATE_EPOCH =~ ^[0-9]+$ ]] || refuse "this is no checkout of git: set SOURCE_DATE_EPOCH to the seconds of its version"
}

# The files as they are installed, below the prefix /usr, in the folder $debian. Programs and libraries lose the names for debuggers.
gather() {
    DESTDIR=$debian "$top/scripts/install.sh" --prefix /usr --name lexp || refuse "what is to be packed is not there"
    rm "$debian/usr/share/lex/installed-files"
    rmdir --ignore-fail-on-non-empty "$debian/usr/share/lex"
    strip --strip-unneeded --remove-section=.comment "$debian/usr/bin/lexp" "$debian/usr/bin/lexlook" "$debian/usr/lib/liblex.so.$version"
    strip --strip-debug --remove-section=.comment --enable-deterministic-archives "$debian/usr/lib/liblex.a"
}

# ---- the archive

put_archive() {
    local name=lex-$version
    cp -a "$debian/usr" "$work/$name"
    sed -i "s|^prefix=.*|prefix=\${pcfiledir}/../..|" "$work/$name/lib/pkgconfig/lex.pc"
    sed -i 's|^\.I /usr/share/|.I share/|' "$work/$name"/share/man/man1/*.1
    tar -C "$work" --sort=name --format=ustar --mtime="@$SOURCE_DATE_EPOCH" --owner=0 --group=0 --numeric-owner -cf - "$name" |
        gzip -9n > "$work/made/$name-linux-$(uname -m).tar.gz"
}

# ---- the package for Debian

# The folders that Debian has of its own, the package's page of changes, and pages that are compressed.
suit_debian() {
    local share=$debian/usr/share libraries
    libraries=lib/$(dpkg-architecture -qDEB_HOST_MULTIARCH)
    mkdir -p "$work/usr/$libraries"
    mv "$debian"/usr/lib/* "$work/usr/$libraries"
    mv "$work/usr/$libraries" "$debian/usr/lib"
    sed -i "s|^libdir=.*|libdir=\${prefix}/$libraries|" "$debian/usr/$libraries/pkgconfig/lex.pc"
    mv "$share/zsh/site-functions" "$share/zsh/vendor-completions"
    mv "$share/doc/lex" "$share/doc/lexp"
    sed -i 's|^\.I /usr/share/doc/lex/|.I /usr/share/doc/lexp/|' "$share"/man/man1/*.1
    mv "$share/doc/lexp/CHANGELOG.md" "$share/doc/lexp/changelog"
    write_copyright > "$share/doc/lexp/copyright"
    rm "$share/doc/lexp/LICENSE"
    write_overrides | install -D -m 644 /dev/stdin "$share/lintian/overrides/lexp"
    write_changelog > "$share/doc/lexp/changelog.Debian"
    gzip -9n "$share"/man/man1/*.1 "$share"/doc/lexp/changelog{,.Debian}
}

write_copyright() {
    echo "Format: https://www.debian.org/doc/packaging-manuals/copyright-format/1.0/"
    echo "Upstream-Name: lex"
    echo "Comment:"
    echo " What is compiled has parts of the toolkit too. Of its crates clap, bstr and"
    echo " arrayvec follow the Rust crates of these names, which are under the licence"
    echo " below, or the Apache licence 2.0 at choice:"
    echo " clap: Copyright (c) Individual contributors."
    echo " bstr: Copyright (c) 2018-2019 Andrew Gallant."
    echo " arrayvec: Copyright (c) Ulrik Sverdrup \"bluss\" 2015-2023."
    echo
    echo "Files: *"
    sed -n 's/^Copyright (c) /Copyright: /p' "$top/LICENSE"
    echo "License: Expat"
    sed -e '1,/^Copyright/d' -e 's/^$/./' "$top/LICENSE" | sed -e 1d -e 's/^/ /'
}

# What lintian would warn of, and why it is so.
write_overrides() {
    cat << 'END_OF_OVERRIDES'
# The package is not made for Debian's archive, which has a number for each new package.
lexp: initial-upload-closes-no-bugs
# One package has the programs and the library, so that one file is all that is to be installed.
lexp: package-name-doesnt-match-sonames liblex*
lexp: link-to-shared-library-in-wrong-package
END_OF_OVERRIDES
}

write_changelog() {
    printf '%s\n\n  * %s\n\n -- %s  %s\n' "lexp ($version-1) unstable; urgency=medium" \
        "The files of lex $version. What is new in it stands in changelog.gz." "$maintainer" "$(date -u -R -d "@$SOURCE_DATE_EPOCH")"
}

# What the programs and the shared library need, as packages of this system.
needed() {
    mkdir -p "$work/needed/debian"
    printf 'Source: lexp\n\nPackage: lexp\nArchitecture: any\n' > "$work/needed/debian/control"
    (cd "$work/needed" && dpkg-shlibdeps -O "$debian"/usr/bin/* "$debian"/usr/lib/*/"liblex.so.$version") | sed -n 's/^shlibs:Depends=//p'
}

# The KiB that the files take, by their sizes.
installed_size() {
    find "$debian/usr" -printf '%y %s\n' | awk '{ sum += $1 == "f" ? int(($2 + 1023) / 1024) : 1 } END { print sum }'
}

write_control() {
    local depends
    depends=$(needed)
    cat << END_OF_CONTROL
Package: lexp
Version: $version-1
Architecture: $(dpkg --print-architecture)
Maintainer: $maintainer
Installed-Size: $(installed_size)
${depends:+Depends: $depends
}Section: devel
Priority: optional
Description: scanner generator whose scans are proved
 lexp makes table files of specifications as those of lex and flex, and scans
 its input by them. Actions are statements of a fixed list: no C is read, made
 or run. What a scan writes, its status and the bytes that it takes are those
 that the rules prescribe, for every specification and every input, by a
 checked proof.
 .
 lexlook shows what a specification does: its automaton as a picture, whether
 two specifications do the same, the shortest text of each rule, and a line for
 each match.
 .
 The library liblex, static and shared, gives the same to programs in C. The
 program is called lexp, since flex has /usr/bin/lex.
END_OF_CONTROL
}

put_package() {
    mkdir "$debian/DEBIAN"
    write_control > "$debian/DEBIAN/control"
    (cd "$debian" && find usr -type f -print0 | sort -z | xargs -0 md5sum > DEBIAN/md5sums)
    echo "liblex ${version%%.*} lexp (>= $version)" > "$debian/DEBIAN/shlibs"
    echo "activate-noawait ldconfig" > "$debian/DEBIAN/triggers"
    find "$debian" -exec touch -h -d "@$SOURCE_DATE_EPOCH" {} +
    dpkg-deb --root-owner-group -Zxz --build "$debian" "$work/made" > /dev/null
}

(($# <= 1)) || refuse "usage: package.sh [FOLDER]"
for program in dpkg-deb dpkg-shlibdeps strip; do
    command -v "$program" > /dev/null || refuse "there is no $program: Debian has it in dpkg-dev and binutils"
done
version=$(cat "$top/VERSION")
maintainer="${DEBFULLNAME:-the lex authors} <${DEBEMAIL:-lex-authors@users.noreply.invalid}>"
read_time
gather
mkdir "$work/made"
put_archive
suit_debian
put_package
mkdir -p "${1:-$top/out/package}"
cd "${1:-$top/out/package}"
for made in "$work"/made/*; do
    cp "$made" .
    sha256sum "${made##*/}"
done
