#!/bin/sh
# Holds the original Rust's answers against document 01's rules: run.sh PROGRAM [SEED] [COUNT]
set -eu

if [ $# -lt 1 ] || [ $# -gt 3 ]; then
    echo "usage: $0 PROGRAM [SEED] [COUNT]" >&2
    exit 2
fi
program=$1
seed=${2:-20240611}
count=${3:-4000}

here=$(cd "$(dirname "$0")" && pwd)
work=$(mktemp -d)
trap 'rm -rf "$work"' EXIT
trap 'exit 2' HUP INT TERM

python3 -B "$here/compare.py" write "$seed" "$count" > "$work/cases"
if ! "$program" < "$work/cases" > "$work/answers"; then
    echo "$0: $program failed" >&2
    exit 2
fi
python3 -B "$here/compare.py" compare "$work/cases" "$work/answers"
