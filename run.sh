#!/usr/bin/env bash
# Runs the desk tool, hannuvel, with the arguments given, as in ./run.sh block '\fs20\t(0,1000,\fs40)'; without any it
# shows an example. Proves the library and builds the tool first, where that has not been done.
set -euo pipefail
root=$(cd "$(dirname "${BASH_SOURCE[0]}")" && pwd)
tool=$root/host/target/release/hannuvel
archive=$root/target/staticlib/libhannuvel.a

# rustup installs here, and a bare environment may not have it on PATH
PATH=$PATH:${HOME:-/root}/.cargo/bin
unset CARGO_TARGET_DIR

say() { printf 'run.sh: %s\n' "$*" >&2; }
stop() {
    say "$*"
    exit 2
}

older() { # FILE THAN..
    local file=$1
    shift
    [ ! -e "$file" ] || [ -n "$(find "$@" -newer "$file" -print -quit)" ]
}

# A crate and all those it uses, by crates.txt, in the order in which rt takes them: each behind those that it uses.
needed() { # CRATE
    awk -v crate="$1" '
        function visit(name,    i, n, used) {
            if (!(name in uses) || name in seen) return
            seen[name] = 1
            n = split(uses[name], used, " ")
            for (i = 1; i <= n; i++) visit(used[i])
            print name
        }
        { sub(/#.*/, "") }
        i = index($0, ":") {
            split(substr($0, 1, i - 1), words, " ")
            uses[words[1]] = substr($0, i + 1)
        }
        END { visit(crate) }' "$root/crates.txt"
}

# Keeps what rt says, and tells which of the crates it has come to: on a terminal in one line, written anew. Those that have
# not changed it does not name.
tell() { # LOG CRATE..
    local line name log=$1 count=0 form='run.sh: %s\n' wipe=''
    local -A place=()
    shift
    for name in "$@"; do place[$name]=$((++count)); done
    if [ -t 2 ]; then form='\r\033[Krun.sh: %s' wipe='\r\033[K'; fi
    while IFS= read -r line; do
        printf '%s\n' "$line" >>"$log"
        case $line in 'rt: chose --jobs '*' for '*) name=${line##* } ;; *) continue ;; esac
        # shellcheck disable=SC2059
        printf "$form" "crate ${place[$name]:-?} of $#: $name" >&2
    done
    # shellcheck disable=SC2059
    printf "$wipe" >&2
}

# Proves the library and writes its archive, telling of it. rt proves again only what has changed. Where it fails, the end of
# what it said is shown.
prove() {
    local log status=0 crates
    command -v rt >/dev/null || stop "rt is not on the PATH: the Rattle kit is missing"
    mapfile -t crates < <(needed hannuvel_c)
    say "proving and building the library, ${#crates[@]} crates, which takes minutes the first time"
    log=$(mktemp)
    "$root/tools/archives.sh" hannuvel 2>&1 </dev/null | tell "$log" "${crates[@]}" || status=$?
    [ "$status" -eq 0 ] || tail -n 40 "$log" >&2
    rm -f "$log"
    [ "$status" -eq 0 ] || stop "tools/archives.sh hannuvel ended with status $status"
}

build() {
    local options=(build --release -p hannuvel-desk)
    command -v cargo >/dev/null || stop "cargo is not on the PATH: Rust is missing"
    say "building the desk tool"
    [ -t 2 ] || options+=(--quiet)
    "$root/host/cargo.sh" "${options[@]}" || stop "the desk tool could not be built"
    touch "$tool"
}

[ "$(uname -sm)" = "Linux x86_64" ] || stop "the library is for Linux on x86-64, and this is $(uname -sm)"
# (rt writes to crates/*/out whatever it does)
mapfile -t sources < <(find "$root/crates" -mindepth 2 -maxdepth 2 \( -name src -o -name specs -o -name proofs \))
sources+=("$root/crates.txt")
if [ -z "${HANNUVEL_ARCHIVES:-}" ] && older "$archive" "${sources[@]}"; then prove; fi
[ ! -e "$archive" ] || sources+=("$archive")
if older "$tool" "${sources[@]}" "$root"/host/{desk,hannuvel,Cargo.toml,Cargo.lock}; then build; fi

if [ $# -eq 0 ]; then
    set -- block '\fs20\1c&H0000FF&\t(0,1000,\fs40)\fad(200,300)\fnArial(x)\kf50\kf80' --duration 3000 --at 100 1500
fi
exec "$tool" "$@"
