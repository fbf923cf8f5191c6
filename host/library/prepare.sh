# For the run.sh of the programs in tools: `prepare` has the original built in target/oracle and does what
# `prepare_library` does: it has the library in target/staticlib, and sets JANGQERUZ_LIBRARY for cargo. Wanted are
# `root` and `library` (empty: build it), of `prepare` also `request`.

failed() {
    echo "run.sh: $1" >&2
    exit 2
}

prepare() {
    if [ ! -x "$root/target/oracle/target/release/scarletbook" ]; then
        env -u CARGO_TARGET_DIR "$request/oracle/build.sh" "$request/docs/src" "$root/target/oracle" >&2 ||
            failed "the original could not be built"
    fi
    prepare_library
}

prepare_library() {
    if [ -z "$library" ]; then
        "$root/host/library/archive.sh" >&2 || failed "the library could not be built"
        library=$root/target/staticlib/libabi.a
    fi
    [ -f "$library" ] || failed "no such file: $library"
    JANGQERUZ_LIBRARY=$(cd "$(dirname "$library")" && pwd)/$(basename "$library")
    export JANGQERUZ_LIBRARY
}

# build NAME [FOLDER [OPTION]..]: the program of the folder, by default of `here`, in target/NAME; cargo gets the
# options
build() {
    name=$1
    manifest=${2:-$here}/Cargo.toml
    shift $(($# < 2 ? 1 : 2))
    CARGO_TARGET_DIR=$root/target/$name \
        cargo build --quiet --release --offline --locked --manifest-path "$manifest" "$@" >&2 ||
        failed "the program could not be built"
}
