#!/bin/sh
# Holds this repository's compiled library against the original Rust, over random cases. README.md says what is compared.
# Status: 0 all the same, 1 a disagreement, 2 something could not be run.
set -eu

usage() {
    cat >&2 <<'END'
usage: run.sh [OPTION VALUE]..
  --seed N         the seed of the drawn cases (20240611)
  --count N        how many are drawn, of each subject (20000, of tracks 500, of notes 250, of reads 1000)
  --subject NAME   one of text, markers, sound, crc, checks, builds, tracks, notes, reads alone
  --failing FILE   where its smallest failing case is saved (target/differential/smallest-NAME.txt)
  --replay FILE    compare only the case that was saved in FILE, again
  --record FILE    compare nothing, write a sample of the original's answers
  --cases FILE     with the drawn builds of this list in it (without: they are chosen, and target/differential/chosen.txt lists them)
  --request DIR    the folder of the request (../shared beside the repository's root)
  --library FILE   this archive instead of that of host/library/archive.sh
END
    exit 2
}

here=$(cd "$(dirname "$0")" && pwd)
root=$(cd "$here/../.." && pwd)
. "$root/host/library/prepare.sh"
seed=20240611
count=
subject=
failing=
replay=
record=
cases=
request=$root/../shared
library=

while [ $# -gt 0 ]; do
    [ $# -ge 2 ] || usage
    case $1 in
        --seed) seed=$2 ;;
        --count) count=$2 ;;
        --subject) subject=$2 ;;
        --failing) failing=$2 ;;
        --replay) replay=$2 ;;
        --record) record=$2 ;;
        --cases) cases=$2 ;;
        --request) request=$2 ;;
        --library) library=$2 ;;
        *) usage ;;
    esac
    shift 2
done
# That file is of one subject, the list is of records.
[ -z "$failing" ] || [ -n "$subject" ] || usage
[ -z "$cases" ] || [ -n "$record" ] || usage

prepare
build differential

status=0
"$root/target/differential/release/differential" --seed "$seed" ${count:+--count "$count"} ${subject:+--subject "$subject"} \
    ${failing:+--failing "$failing"} --folder "$root/target/differential" ${replay:+--replay "$replay"} ${record:+--record "$record"} ${cases:+--cases "$cases"} \
    "$root/target/oracle/target/release/scarletbook" || status=$?
[ "$status" -le 2 ] || failed "the comparison ended with status $status"
exit "$status"
