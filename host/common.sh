# shellcheck shell=bash disable=SC2034
# For the scripts beside, which source it: folders, Debian's packages, the proved library, cargo.

root=$(cd "$(dirname "${BASH_SOURCE[0]}")/.." && pwd)
export LC_ALL=C.UTF-8 CARGO_TARGET_DIR=$root/target/host
export HOME="${HOME:-$(getent passwd "$(id -u)" | cut -d: -f6)}"
dff=$CARGO_TARGET_DIR/release/dff

# What the host is built on, beside cargo.
host_packages=(librust-clap-dev librust-clap-complete-dev librust-serde-dev librust-serde-json-dev librust-toml-dev
    librust-indicatif-dev librust-rustix-dev)

# bounded SECONDS COMMAND..: the command, ended if it takes longer
bounded() {
    timeout --kill-after=10 "$@" </dev/null
}

# missing PACKAGE..: those that are not there, neither as a package nor as a command of that name
missing() {
    local package
    for package; do
        [ "$(dpkg-query -W -f '${db:Status-Status}' "$package" 2>/dev/null)" = installed ] ||
            command -v "$package" >/dev/null || printf ' %s' "$package"
    done
}

apt_get() {
    DEBIAN_FRONTEND=noninteractive bounded 300 apt-get -qq -y --no-install-recommends -o DPkg::Lock::Timeout=60 \
        -o Acquire::Retries=1 -o Acquire::http::Timeout=20 -o Acquire::https::Timeout=20 "$@" >&2
}

# want PACKAGE..: installs what is missing, if it can; fails if something still is
want() {
    local wanted
    wanted=$(missing "$@")
    [ -n "$wanted" ] || return 0
    if [ "$(id -u)" = 0 ] && command -v apt-get >/dev/null; then
        # shellcheck disable=SC2086
        apt_get install $wanted || { apt_get update && apt_get install $wanted; }
    fi
    [ -z "$(missing "$@")" ]
}

# The library: the one that JANGQERUZ_LIBRARY names, else it is proved and compiled here.
library() {
    if [ -z "${JANGQERUZ_LIBRARY:-}" ]; then
        bounded 3600 "$root/host/library/archive.sh" || return 1
        JANGQERUZ_LIBRARY=$root/target/staticlib/libabi.a
    fi
    JANGQERUZ_LIBRARY=$(realpath "$JANGQERUZ_LIBRARY") && [ -f "$JANGQERUZ_LIBRARY" ] && export JANGQERUZ_LIBRARY
}

# host_cargo SECONDS WORDS..: cargo in host/, where its configuration names Debian's folder of crates
host_cargo() {
    (cd "$root/host" && bounded "$1" cargo --offline "${@:2}")
}
