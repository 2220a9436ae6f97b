#!/usr/bin/env bash
# Writes the stored list anew, the inputs and the answers of crates/replay.
set -euo pipefail
cd "$(dirname "${BASH_SOURCE[0]}")"
cargo build --release --offline
compare=${CARGO_TARGET_DIR:-target}/release/compare
list=../crates/replay
work=$(mktemp -d)
trap 'rm -r "$work"' EXIT

sample() { # SUITE SEED COUNT
    "$compare" sample "$1" --seed "$2" --count "$3" --inputs "$work/inputs" --answers "$work/answers"
    cat "$work/inputs" >>"$work/stdin"
    cat "$work/answers" >>"$work/stdout"
}
sample leaves 1 3000
sample blocks 48 2000
sample blocks 7 1000
sample drawings 3 1200
sample clips 3 400
sample evaluate 5 800
sample marks 5 600
sample karaoke 5 600
sample progress 5 600
sample styles 5 400
mv "$work/stdin" "$work/stdout" "$list"
