#!/usr/bin/env bash
# Packs what a machine without the toolchain needs: library, header, dff, man pages, completions and papers, as .deb and
# .tar.gz.
#   host/package.sh
# Both go to target/package. The same files give the same packages: SOURCE_DATE_EPOCH, or the date of the last commit,
# is the date of all in them. JANGQERUZ_LIBRARY names a library that was proved before. Status: 0 they are there, 1 not.
set -euo pipefail
. "$(dirname "$0")/common.sh"
out=$root/target/package

failed() {
    echo "package.sh: $1" >&2
    exit 1
}

# The tree that both packages have, below usr/ in the .deb.
lay_out() {
    local tree=$1 share=$1/share doc=$1/share/doc/jangqeruz
    install -D -m 755 "$dff" "$tree/bin/dff"
    strip "$tree/bin/dff"
    install -D -m 644 "$JANGQERUZ_LIBRARY" "$tree/lib/libjangqeruz.a"
    install -D -m 644 "$root/include/jangqeruz.h" "$tree/include/jangqeruz.h"
    mkdir -p "$tree/lib/pkgconfig"
    sed "s/@VERSION@/$version/" "$root/host/jangqeruz.pc.in" >"$tree/lib/pkgconfig/jangqeruz.pc"
    install -D -m 644 "$root/host/man/dff.1" "$share/man/man1/dff.1"
    install -D -m 644 "$root/host/man/dff-manifest.5" "$share/man/man5/dff-manifest.5"
    gzip --best --no-name "$share"/man/man?/*
    mkdir -p "$share/bash-completion/completions" "$share/zsh/vendor-completions" "$share/fish/vendor_completions.d"
    "$dff" completions bash >"$share/bash-completion/completions/dff"
    "$dff" completions zsh >"$share/zsh/vendor-completions/_dff"
    "$dff" completions fish >"$share/fish/vendor_completions.d/dff.fish"
    install -D -m 644 -t "$doc" "$root/docs/USING.md" "$root/docs/REFUSALS.md" "$root/docs/WORDS.md" \
        "$root/CHANGELOG.md"
    install -D -m 644 "$root/NOTICE" "$doc/copyright"
    install -D -m 644 -t "$doc/examples" "$root/examples/c/one.c"
    crates_notice >"$doc/crates"
}

# The crates that dff is linked with, and what Debian says of their licences.
crates_notice() {
    local crate package
    echo "dff contains these crates, as Debian packages them; what Debian says of their copyrights follows."
    # a line is "name v1.2.3" with words behind it; those of this workspace have their path there
    host_cargo 60 tree --package dff --edges normal,no-proc-macro --prefix none | grep -v " ($root" |
        awk '{ print $1 "-" substr($2, 2) }' | LC_ALL=C sort -u | while read -r crate; do
        package=$(dpkg-query -S "/usr/share/cargo/registry/$crate" 2>/dev/null | sed 's/:.*//') || package=
        printf '\n==== %s %s\n\n' "$crate" "$package"
        cat "/usr/share/doc/$package/copyright" 2>/dev/null ||
            sed -n 's/^license = //p' "/usr/share/cargo/registry/$crate/Cargo.toml"
    done
}

# The oldest C library that dff runs with, by the symbols that it takes.
libc_version() {
    objdump -T "$dff" | sed -n 's/.*(\?GLIBC_\([0-9.]*\))\?.*/\1/p' | sort -uV | tail -1
}

control() {
    cat <<END
Package: jangqeruz
Version: $deb_version
Architecture: amd64
Maintainer: the authors of Jangqeruz <jangqeruz@example.invalid>
Section: sound
Priority: optional
Installed-Size: $1
Depends: libc6 (>= $(libc_version)), libgcc-s1
Description: DSDIFF writer that is proved
 The program dff makes DSDIFF (.dff) files of DSD and DST sound, cuts, shows
 and verifies them. Every byte that it writes comes from a library that is
 proved against definitions of the format. The library is here too, with its
 header, for programs in C and other languages.
END
}

library || failed "the library could not be made"
host_cargo 1800 build --quiet --release --package dff || failed "dff could not be built"
version=$("$dff" --version | awk '{ print $NF }')
deb_version=$(tr - '~' <<<"$version") # what comes before a release sorts before it
: "${SOURCE_DATE_EPOCH:=$(git -C "$root" log -1 --format=%ct 2>/dev/null || stat -c %Y "$root/CHANGELOG.md")}"
export SOURCE_DATE_EPOCH
umask 022
work=$(mktemp -d)
trap 'rm -rf "$work"' EXIT

name=jangqeruz-$version-x86_64-linux
lay_out "$work/$name"
mkdir -p "$work/deb/DEBIAN"
cp -a "$work/$name" "$work/deb/usr"
kibibytes=$(find "$work/deb/usr" -type f -printf '%s\n' | awk '{ sum += int(($1 + 1023) / 1024) } END { print sum }')
control "$kibibytes" >"$work/deb/DEBIAN/control"
find "$work" -exec touch --no-dereference --date "@$SOURCE_DATE_EPOCH" {} +

rm -rf "$out"
mkdir -p "$out"
tar --format=ustar --sort=name --owner=0 --group=0 --numeric-owner -C "$work" -cf - "$name" |
    gzip --best --no-name >"$out/$name.tar.gz"
dpkg-deb --root-owner-group -Zgzip --build "$work/deb" "$out/jangqeruz_${deb_version}_amd64.deb" >/dev/null
ls "$out"/*
