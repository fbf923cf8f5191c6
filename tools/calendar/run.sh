#!/bin/sh
# Holds what this repository's compiled library says of dates and windows against Python's own calendar:
#   run.sh [--library FILE] [--seed N] [--count N]
# README.md says what is compared. Status: 0 no disagreement, 1 one, 2 something could not be run.
set -eu

usage() {
    echo "usage: run.sh [--library FILE] [--seed N] [--count N]" >&2
    exit 2
}

here=$(cd "$(dirname "$0")" && pwd)
root=$(cd "$here/../.." && pwd)
. "$root/host/library/prepare.sh"
library=
seed=20240611
count=50000

while [ $# -gt 0 ]; do
    [ $# -ge 2 ] || usage
    case $1 in
        --library) library=$2 ;;
        --seed) seed=$2 ;;
        --count) count=$2 ;;
        *) usage ;;
    esac
    shift 2
done

prepare_library
work=$(mktemp -d)
trap 'rm -rf "$work"' EXIT
trap 'exit 2' HUP INT TERM
cc -std=c99 -O2 -Wall -Wextra -Werror -pedantic -I "$root/include" -o "$work/answers" "$here/answers.c" \
    "$JANGQERUZ_LIBRARY" || failed "the program could not be built"

status=0
python3 -B "$here/compare.py" "$work/answers" "$seed" "$count" || status=$?
[ "$status" -le 2 ] || failed "the comparison ended with status $status"
exit "$status"
