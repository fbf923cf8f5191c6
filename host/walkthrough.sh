#!/usr/bin/env bash
# Runs the walk-through of docs/USING.md with an unpacked package, and nothing of this repository besides:
#   host/walkthrough.sh PREFIX FOLDER
# PREFIX is the folder of the package, which has bin/dff; FOLDER is empty or not there yet. The blocks that begin with
# "```sh run" are run one after the other in FOLDER, each in a shell of its own, with PREFIX set, that ends at the first
# command that fails; one that begins with "```sh run 3" has to end with status 3. A line is printed for each: "ok N",
# "failed N" with what it wrote, or "skipped N: there is no PROGRAM" where a line begins with a program of others that
# is not installed.
# Status: 0 none failed, 1 one did, and those behind it are not run.
set -euo pipefail
paper=$(cd "$(dirname "$0")/../docs" && pwd)/USING.md
prefix=$(realpath "$1")
mkdir -p "$2"
folder=$(realpath "$2")
work=$(mktemp -d)
trap 'rm -rf "$work"' EXIT
blocks=$work/blocks
said=$work/said
mkdir "$blocks"

awk -v to="$blocks" '
    /^```sh run( [0-9]+)?$/ { file = sprintf("%s/%02d-%d", to, ++n, $3); next }
    /^```/ { file = "" }
    file { print > file }' "$paper"

# absent BLOCK: programs of others at the beginning of its lines that are not installed
absent() {
    local reader
    for reader in ffprobe mediainfo cc c++; do
        if grep -q "^$reader " "$1" && ! command -v "$reader" >/dev/null; then
            echo "$reader"
        fi
    done
}

# run BLOCK: in the folder, with the package's programs and the system's
run() {
    (cd "$folder" && env -i PATH="$prefix/bin:/usr/bin:/bin" HOME="$folder" LC_ALL=C.UTF-8 PREFIX="$prefix" \
        timeout --kill-after=10 120 bash -euo pipefail "$1" </dev/null >"$said" 2>&1)
}

for block in "$blocks"/*; do
    number=$(basename "${block%-*}")
    absent=$(absent "$block" | head -1)
    if [ -n "$absent" ]; then
        echo "skipped $number: there is no $absent"
        continue
    fi
    status=0
    run "$block" || status=$?
    if [ "$status" != "${block##*-}" ]; then
        echo "failed $number: $(tail -1 "$block")"
        cat "$block" "$said"
        echo "status $status"
        exit 1
    fi
    echo "ok $number: $(tail -1 "$block")"
done
