#!/bin/sh
# Builds and reads a file by this repository's compiled library in threads with small stacks:
#   run.sh [--library FILE]
# Prints for each size whether it ran. Status: 0 it ran with 64 KiB, 1 it did not, 2 something could not be run.
set -eu

usage() {
    echo "usage: run.sh [--library FILE]" >&2
    exit 2
}

here=$(cd "$(dirname "$0")" && pwd)
root=$(cd "$here/../.." && pwd)
. "$root/host/library/prepare.sh"
library=

while [ $# -gt 0 ]; do
    [ $# -ge 2 ] || usage
    case $1 in
        --library) library=$2 ;;
        *) usage ;;
    esac
    shift 2
done

prepare_library
build stack

# a status above 1: it ended by a signal
ran() {
    status=0
    said=$("$root/target/stack/release/stack" "$1" 2>&1) || status=$?
    case $status in
        0) echo "$1 KiB: ran: $said" ;;
        1) echo "$1 KiB: an answer is wrong: $said" ;;
        *) echo "$1 KiB: too little" ;;
    esac
}

for kib in 16 32 64; do
    ran "$kib"
done
[ "$status" -eq 0 ] || exit 1
