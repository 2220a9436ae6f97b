#!/usr/bin/env bash
# Cargo for this workspace: host/cargo.sh test --release -p hannuvel.
#
# The desk tool's libraries come from crates.io where it is reached, or has been before. Elsewhere Debian's packages hold
# them; those that are missing are installed if this may be done.
set -euo pipefail
host=$(cd "$(dirname "${BASH_SOURCE[0]}")" && pwd)

packages=(
    librust-clap-dev librust-codespan-reporting-dev librust-serde-json-dev librust-serde-derive-dev
    librust-plotters-dev librust-plotters-svg-dev librust-indicatif-dev librust-assert-cmd-dev librust-insta-dev
)
debian=/usr/share/cargo/registry
# A copy of it in links. Debian gives no checksum for most of its crates, or one of its own making; in the copy none has
# one, and so Cargo.lock holds for both sources.
copy=$host/target/registry

say() { printf 'host/cargo.sh: %s\n' "$*" >&2; }
stop() {
    say "$*"
    exit 2
}

missing() {
    local found
    found=$(dpkg-query -W -f '${Package} ${db:Status-Status}\n' "${packages[@]}" 2>/dev/null) || true
    printf '%s\n' "${packages[@]}" | grep -vxFf <(sed -n 's/ installed$//p' <<<"$found") || true
}

# Installs packages as root or by a sudo that asks nothing; else says the line to type.
install() { # PACKAGE..
    local line="apt-get install -y --no-install-recommends $*" root=()
    [ "$(id -u)" -eq 0 ] || root=(sudo -n)
    if [ ${#root[@]} -eq 0 ] || sudo -n true 2>/dev/null; then
        say "installing $*"
        # shellcheck disable=SC2086
        ${root[@]+"${root[@]}"} env DEBIAN_FRONTEND=noninteractive sh -c "$line || { apt-get update && $line; }" \
            >/dev/null 2>&1 </dev/null && return
    fi
    stop "the desk tool's libraries are missing and crates.io is not reached. Type: sudo $line"
}

make_copy() {
    local sum
    [ ! -d "$copy" ] || [ "$debian" -nt "$copy" ] || return 0
    rm -rf "$copy"
    mkdir -p "$copy"
    cp -rs "$debian/." "$copy/"
    for sum in "$copy"/*/.cargo-checksum.json; do
        rm "$sum"
        printf '{"files":{}}\n' >"$sum"
    done
}

[ $# -gt 0 ] || stop "a command of cargo is missing, as in host/cargo.sh test"
cd "$host"
export CARGO_TARGET_DIR=$host/target
options=(--offline --locked)
if ! cargo fetch "${options[@]}" --quiet 2>/dev/null; then
    lacking=("${packages[@]}")
    ! command -v dpkg-query >/dev/null || mapfile -t lacking < <(missing)
    if [ ${#lacking[@]} -gt 0 ]; then
        # In reach, crates.io comes first; Cargo.lock then gets its checksums.
        ! CARGO_NET_RETRY=0 CARGO_HTTP_TIMEOUT=5 cargo fetch --quiet 2>/dev/null || exec cargo "$@"
        install "${lacking[@]}"
    fi
    make_copy
    options+=(--config 'source.crates-io.replace-with="debian"' --config "source.debian.directory=\"$copy\"")
    if ! cargo "${options[@]}" fetch --quiet 2>/dev/null; then
        say "this Debian has other versions than Cargo.lock, which follows them"
        options=("${options[@]/--locked/--offline}")
    fi
fi
exec cargo "$1" "${options[@]}" "${@:2}"
