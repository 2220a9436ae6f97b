#!/usr/bin/env bash
# Proves and builds the static libraries and puts each where its callers look for it: target/staticlib/libhannuvel.a, the
# exports of crates/hannuvel_c, and target/staticlib/libleaves.a, those of crates/leaves_c. What is proved already is taken.
# Usage: tools/archives.sh [hannuvel] [leaves]; default: both
set -euo pipefail
cd "$(dirname "${BASH_SOURCE[0]}")/.."

stop() { # STATUS TEXT
    printf 'tools/archives.sh: %s\n' "$2" >&2
    exit "$1"
}

command -v rt >/dev/null || stop 127 "rt is not on the PATH: the Rattle kit is missing"
[ $# -gt 0 ] || set -- hannuvel leaves
for name in "$@"; do
    [ -d "crates/${name}_c" ] || stop 2 "there is no crate ${name}_c"
done
mkdir -p target/staticlib
for name in "$@"; do
    (cd "crates/${name}_c" && rt lib)
    # a second name first, so that no caller reads half of it
    cp "crates/${name}_c/out/lib${name}_c.a" "target/staticlib/lib$name.a.new"
    mv "target/staticlib/lib$name.a.new" "target/staticlib/lib$name.a"
done
