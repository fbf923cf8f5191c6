#!/usr/bin/env bash
# From nothing to DSDIFF files: proves the library, builds dff, makes a short recording, builds files of it, shows and
# verifies them.
#   host/demo.sh
# As root it installs what is missing of Debian's packages, else it says which. Status: 0 all was done, 1 it was not.
. "$(dirname "$0")/common.sh"
demo=$root/target/demo

step() {
    printf '\n== %s\n' "$1"
}

failed() {
    echo "demo.sh: $1" >&2
    exit 1
}

[ -n "${JANGQERUZ_LIBRARY:-}" ] || command -v rt >/dev/null || failed "there is no rt: this wants the Rattle toolchain"
command -v cargo >/dev/null || failed "there is no cargo: this wants the Rust toolchain"

step "Debian's packages"
want "${host_packages[@]}" gcc ||
    failed "missing, and to be installed as root: apt-get install$(missing "${host_packages[@]}" gcc)"

step "the library: proved and compiled (the first time this takes minutes)"
library || failed "the library could not be made"

step "the program dff"
host_cargo 1800 build --quiet --release --package dff || failed "dff could not be built"

step "a short recording of its own, and a manifest"
rm -rf "$demo"
"$dff" sample "$demo" || failed "no sample"

step "its files"
"$dff" build "$demo/sample.toml" --output "$demo/files" || failed "the files could not be built"

for file in "$demo"/files/*.dff; do
    step "$(basename "$file")"
    "$dff" show "$file" || failed "$file could not be shown"
    "$dff" verify "$file" || failed "$file is at fault"
done

step "done"
echo "dff:           $dff"
echo "the recording: $demo"
echo "the files:     $demo/files"
echo "what next:     docs/USING.md"
