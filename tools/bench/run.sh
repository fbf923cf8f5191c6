#!/bin/sh
# Times builds and reads of whole files by this repository's compiled library and by the original Rust, side by side:
#   run.sh [--request DIR] [--library FILE] [--only reads|parts|crc|builds|asking|largest]
# README.md says what is timed. Status: 0 it ran, 1 the bytes of the two differ, 2 something could not be run.
set -eu

usage() {
    echo "usage: run.sh [--request DIR] [--library FILE] [--only reads|parts|crc|builds|asking|largest]" >&2
    exit 2
}

here=$(cd "$(dirname "$0")" && pwd)
root=$(cd "$here/../.." && pwd)
. "$root/host/library/prepare.sh"
request=$root/../shared
library=
only=

while [ $# -gt 0 ]; do
    [ $# -ge 2 ] || usage
    case $1 in
        --request) request=$2 ;;
        --library) library=$2 ;;
        --only)
            case $2 in reads | parts | crc | builds | asking | largest) only=$2 ;; *) usage ;; esac
            ;;
        *) usage ;;
    esac
    shift 2
done

prepare
# With the crate `crc`, if Debian's packages of it and of what it is built with are there.
registry=/usr/share/cargo/registry
if [ -d "$registry/crc-1.8.1" ] && [ -d "$registry/build_const-0.2.1" ]; then
    program=bench-with-crc-crate
    build $program "$here/with_crc_crate" --config "source.crates-io.replace-with='debian'" \
        --config "source.debian.directory='$registry'"
else
    program=bench
    build $program
fi

status=0
"$root/target/$program/release/bench" ${only:+--only "$only"} || status=$?
[ "$status" -le 1 ] || failed "the program ended with status $status"
exit "$status"
