#!/bin/sh
# The static library for C and Rust: proves the crate abi_c and what it rests on, begun with what earlier checks on this machine kept,
# compiles it, and leaves it as target/staticlib/libabi.a of the repository, the name that it has for those who link it.
#   host/library/archive.sh
# Status: 0 it is there, 1 not.
set -eu
root=$(cd "$(dirname "$0")/../.." && pwd)
(cd "$root/crates/abi_c" && rt lib) || exit 1
mkdir -p "$root/target/staticlib"
cp "$root/crates/abi_c/out/libabi_c.a" "$root/target/staticlib/libabi.a"
