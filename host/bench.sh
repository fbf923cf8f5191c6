#!/bin/bash
# How fast `dff build` of a DSD source of 1 GB is, beside `cp` of the same bytes and a sync of the copy. A benchmark,
# no test.
#   host/bench.sh [TURNS [FOLDER]]     folder for some 3 GB of temporary files; default: a new one under TMPDIR or /tmp
# It wants `dff` at target/host/release/dff (or DFF). Both write a new file of the same bytes to the same file system;
# they take turns, after one that doesn't count, and the medians are compared.
set -euo pipefail

root=$(cd "$(dirname "$0")/.." && pwd)
dff=${DFF:-$root/target/host/release/dff}
turns=${1:-5}
[ -x "$dff" ] || { echo "bench.sh: no $dff" >&2; exit 2; }
folder=$(mktemp -d "${2:-${TMPDIR:-/tmp}}/dff-bench.XXXXXX")
trap 'rm -rf "$folder"' EXIT

frames=106300 # of 9,408 bytes: 1.0 GB
head -c $((frames * 9408)) /dev/urandom > "$folder/sound.raw"
cat > "$folder/bench.toml" <<END
version = 1
[[file]]
name = "one.dff"
source = { raw = "sound.raw", channels = 2 }
END
sync

# seconds COMMAND..: how long it takes
seconds() {
    local start end
    start=$(date +%s%N)
    "$@" > /dev/null
    end=$(date +%s%N)
    echo $(((end - start) / 1000000))
}

copy() {
    cp "$folder/sound.raw" "$folder/copy.raw"
    sync "$folder/copy.raw" "$folder"
}

copy_alone() {
    cp "$folder/sound.raw" "$folder/copy.raw"
}

build() {
    "$dff" build --quiet "$folder/bench.toml" -o "$folder/out"
}

median() {
    sort -n | sed -n "$(((turns + 1) / 2))p"
}

copy
build
# turn COMMAND: how long it takes with nothing of the last turn left
turn() {
    rm -rf "$folder/copy.raw" "$folder/out"
    sync
    seconds "$1"
}

copies=() alone=() builds=()
for ((i = 0; i < turns; i++)); do
    copies+=("$(turn copy)")
    builds+=("$(turn build)")
    alone+=("$(turn copy_alone)")
done
echo "cp and sync, ms: ${copies[*]}"
echo "dff build, ms:   ${builds[*]}"
echo "cp alone, ms:    ${alone[*]}"
cp_ms=$(printf '%s\n' "${copies[@]}" | median)
dff_ms=$(printf '%s\n' "${builds[@]}" | median)
alone_ms=$(printf '%s\n' "${alone[@]}" | median)
awk -v cp="$cp_ms" -v dff="$dff_ms" -v alone="$alone_ms" -v bytes=$((frames * 9408)) 'BEGIN {
    printf "medians: cp and sync %d MB/s, dff build %d MB/s: ", bytes / cp / 1000, bytes / dff / 1000
    printf "dff build runs at %.2f of cp and sync, at %.2f of cp alone\n", cp / dff, alone / dff
}'
