#!/bin/sh
# Writes DSDIFF files with this repository's compiled library, gives them to ffmpeg, ffprobe, mediainfo, wavpack and mutagen,
# and prints a table of what they make of them:
#   run.sh [--library FILE] [--out DIR] [--keep]
# README.md says what is checked. Status: 0 nothing is unexplained, 1 something is, 2 something could not be run.
set -eu

usage() {
    echo "usage: run.sh [--library FILE] [--out DIR] [--keep]" >&2
    exit 2
}

here=$(cd "$(dirname "$0")" && pwd)
root=$(cd "$here/../.." && pwd)
. "$root/host/library/prepare.sh"
library=
out=$root/target/readers/files
keep=no
# Debian's, for its package of mutagen.
python=/usr/bin/python3

while [ $# -gt 0 ]; do
    case $1 in
        --library) [ $# -ge 2 ] || usage; library=$2; shift 2 ;;
        --out) [ $# -ge 2 ] || usage; out=$2; shift 2 ;;
        --keep) keep=yes; shift ;;
        *) usage ;;
    esac
done

[ -x "$python" ] || failed "no $python; the Debian package is python3"
"$python" -B "$here/check/main.py" || exit 2

prepare_library
build readers

mkdir -p "$out" || failed "no folder $out"
"$root/target/readers/release/readers" "$out" || failed "the files could not be written"

status=0
LC_ALL=C.UTF-8 "$python" -B "$here/check/main.py" "$out" || status=$?

if [ "$keep" = no ]; then
    while read -r name; do
        for ending in dff content frames txt; do
            rm -f "$out/$name.$ending"
        done
    done <"$out/files.txt"
    rm -f "$out/files.txt"
    rmdir "$out" 2>/dev/null || true
fi
[ "$status" -le 1 ] || failed "the readers could not be run"
exit "$status"
