#!/usr/bin/env bash
# The host's tests: the library is proved, the host built on it and tested, the package made and used as docs/USING.md
# tells.
#   host/test.sh
# JANGQERUZ_LIBRARY names a library that was proved before. A part that wants a package that cannot be had is skipped,
# with its reason. The last line is "N passed, M failed", with ", K skipped" if any is. Status: 0 none failed, 1 one
# did. All is written to target/ and to a folder in /tmp that is removed.
# shellcheck disable=SC2317
set -uo pipefail
. "$(dirname "$0")/common.sh"
work=$(mktemp -d)
trap 'rm -rf "$work"' EXIT
log=$work/log
passed=0 failed=0 skipped=0

pass() {
    passed=$((passed + 1))
    echo "ok: $1"
}

fail() {
    failed=$((failed + 1))
    echo "FAILED: $1"
    tail -n 60 "$log" 2>/dev/null | sed 's/^/    /'
}

# skip WHAT REASON
skip() {
    skipped=$((skipped + 1))
    echo "skipped: $1: $2"
}

# try WHAT COMMAND..: one test; what the command writes is shown if it fails
try() {
    if "${@:2}" >"$log" 2>&1; then
        pass "$1"
    else
        fail "$1"
        return 1
    fi
}

end() {
    echo "$passed passed, $failed failed$([ "$skipped" = 0 ] || echo ", $skipped skipped")"
    exit "$((failed > 0))"
}

# The counts of cargo's own tests; those that it leaves out are skipped here too.
cargo_tests() {
    local status=0 counts
    host_cargo 3600 test --release --workspace --no-fail-fast >"$log" 2>&1 || status=$?
    grep -E '^test .* \.\.\. ignored' "$log" | while read -r line; do echo "skipped: cargo's $line"; done
    counts=$(awk '/^test result:/ { p += $4; f += $6; i += $8 } END { print p + 0, f + 0, i + 0 }' "$log")
    read -r p f i <<<"$counts"
    passed=$((passed + p)) failed=$((failed + f)) skipped=$((skipped + i))
    echo "cargo test: $p passed, $f failed, $i ignored"
    if [ "$status" != 0 ] && [ "$f" = 0 ]; then fail "cargo test"; fi
    [ "$f" = 0 ] || tail -n 400 "$log"
}

without_warnings() {
    host_cargo 1800 build --release --workspace --all-targets && ! grep -E '^warning' "$log"
}

documented() {
    RUSTDOCFLAGS="-D warnings" host_cargo 1800 doc --release --workspace --no-deps
}

# compiled FILE COMPILER OPTION..: a program in C, with the sanitizers
compiled() {
    bounded 120 "$2" "${@:3}" -Wall -Wextra -Werror -pedantic -g -fsanitize=address,undefined \
        -fno-sanitize-recover=all -I"$root/include" -o "$work/program" "$root/$1" -x none "$JANGQERUZ_LIBRARY" &&
        (cd "$work" && bounded 60 ./program)
}

# The same packages a second time.
packed_twice() {
    "$root/host/package.sh" && (cd "$root/target/package" && sha256sum ./* >"$work/sums") &&
        "$root/host/package.sh" && (cd "$root/target/package" && sha256sum --check "$work/sums")
}

unpacked() {
    mkdir "$work/package" "$work/deb" &&
        tar -xf "$root"/target/package/*.tar.gz --strip-components=1 -C "$work/package" &&
        dpkg-deb --extract "$root"/target/package/*.deb "$work/deb" && diff -r "$work/package" "$work/deb/usr"
}

# The blocks of docs/USING.md, a test each.
walkthrough() {
    "$root/host/walkthrough.sh" "$work/package" "$work/empty" >"$log" 2>&1
    while read -r outcome rest; do
        case $outcome in
            ok) pass "docs/USING.md, block $rest" ;;
            skipped) skip "docs/USING.md, block ${rest%%: *}" "${rest#*: }" ;;
            failed) fail "docs/USING.md, block $rest" ;;
        esac
    done < <(grep -E '^(ok|skipped|failed) ' "$log")
    grep -q '^ok ' "$log" || fail "docs/USING.md: no block was run"
}

# Each file of the walk-through is what other programs take for DSDIFF.
ffprobe_reads() {
    local file said
    for file in "$work"/empty/demo/out/*.dff; do
        said=$(bounded 60 ffprobe -v error -show_entries stream=codec_name:format=format_name -of csv=p=0 "$file") ||
            return 1
        echo "$file: $said"
        grep -qE '^(dsd_msbf|dst)$' <<<"$said" && grep -q '^iff$' <<<"$said" || return 1
    done
}

mediainfo_reads() {
    local file said
    for file in "$work"/empty/demo/out/*.dff; do
        said=$(bounded 60 mediainfo --Inform='General;%Format%' "$file")
        echo "$file: $said"
        [ "$said" = DSDIFF ] || return 1
    done
}

# completion SHELL
completion() {
    "$work/package/bin/dff" completions "$1" >"$work/completion" && grep -q verify "$work/completion" &&
        { [ "$1" != bash ] || bash -n "$work/completion"; }
}

c_compiler() {
    local program
    for program in examples/c/one.c host/tests/figures.c host/tests/dates.c; do
        if want gcc g++; then
            try "$program as C99, ASan and UBSan" compiled "$program" gcc -std=c99 -x c
            try "$program as C++, ASan and UBSan" compiled "$program" g++ -std=c++11 -x c++
        else
            skip "$program" "no$(missing gcc g++)"
        fi
    done
}

# Dates and windows, held against Python's own calendar.
calendar() {
    if command -v python3 >/dev/null && want gcc; then
        try "tools/calendar: the dates and windows of Python's calendar" \
            bounded 300 "$root/tools/calendar/run.sh" --library "$JANGQERUZ_LIBRARY"
    else
        skip "tools/calendar" "no$(missing python3 gcc)"
    fi
}

reader() {
    if want "$2"; then try "$1 reads the files" "$3"; else skip "$1 reads the files" "no package $2"; fi
}

man_pages() {
    if ! want mandoc; then
        skip "man pages" "no package mandoc"
        return
    fi
    for page in "$root"/host/man/*; do
        try "$(basename "$page") has no faults" bounded 60 mandoc -Tlint -Wwarning "$page"
    done
}

# The crates of Debian's packages.
host_crates() {
    local names=("${host_packages[@]#librust-}")
    names=("${names[@]%-dev}")
    names=("${names[@]//-/_}")
    command -v cargo && want "${host_packages[@]}" gcc && host_cargo 1800 build --release "${names[@]/#/--package=}"
}

host() {
    try "the host builds without warnings" without_warnings || return
    cargo_tests
    try "cargo doc without warnings" documented
    try "demo.sh" bounded 600 "$root/host/demo.sh"
    try "package.sh, twice the same" packed_twice || return
    try "both packages have the same files" unpacked || return
    want ffmpeg
    want mediainfo
    walkthrough
    reader ffprobe ffmpeg ffprobe_reads
    reader mediainfo mediainfo mediainfo_reads
    for shell in bash zsh fish; do try "completions for $shell" completion "$shell"; done
}

# What the host is built on is compiled beside the proof, which leaves a core idle at times. Whether it could be is seen
# when the host itself is built.
[ -n "${JANGQERUZ_LIBRARY:-}" ] || host_crates >/dev/null 2>&1 &
try "the library: ${JANGQERUZ_LIBRARY:-proved and compiled}" library
proved=$?
wait
[ "$proved" = 0 ] || end
if command -v python3 >/dev/null; then
    try "tools/border: header, names and refusals" python3 "$root/tools/border/border.py" --check
    try "tools/border: each changed parameter is seen" python3 "$root/tools/border/border.py" --try
else
    skip "tools/border" "no python3"
fi
c_compiler
calendar
man_pages
if command -v cargo >/dev/null && want "${host_packages[@]}" gcc; then
    host
else
    wanting=$(missing cargo "${host_packages[@]}" gcc)
    for part in "cargo build" "cargo test" "cargo doc" demo.sh package.sh docs/USING.md \
        "ffprobe reads the files" "mediainfo reads the files" completions; do
        skip "$part" "no$wanting"
    done
fi
end
