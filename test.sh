#!/usr/bin/env bash
# The tests: the papers, rt ci over every crate of crates.txt, then the hosts in C and Rust and the comparison with the Rust.
# Any failure ends it with a status other than 0. Its last line is rt ci's own, 'N passed, 0 failed',
# held back until everything else has passed.
set -euo pipefail
cd "$(dirname "${BASH_SOURCE[0]}")"

say() { printf 'test.sh: %s\n' "$*"; }
fail() {
    printf 'test.sh: FAILED: %s\n' "$*" >&2
    exit 1
}

# rustup installs here, and a bare environment may not have it on PATH
PATH=$PATH:${HOME:-/root}/.cargo/bin
export CARGO_TARGET_DIR=$PWD/oracle/target
unset HANNUVEL_ARCHIVES

# Without its tools a part would go untested, so this is a failure and not a reason to pass over it.
for tool in rt cargo rustc python3 nm gcc script; do
    command -v "$tool" >/dev/null || fail "$tool is not on PATH"
done

# ---- the papers, held to the sources
docs/papers.py || fail "docs/papers.py ended with status $?"
docs/citations.py || fail "docs/citations.py ended with status $?"

# ---- rt ci, plain and over the checkout as it stands
kept=$(mktemp)
trap 'rm -f "$kept"' EXIT
began=$SECONDS
set +e
rt ci 2>&1 | tee "$kept" | sed -u '$d'
ended=("${PIPESTATUS[@]}")
set -e
mkdir -p target
cp "$kept" target/ci.log
verdict=$(tail -n 1 "$kept")
proving=$((SECONDS - began))
[ "${ended[0]}" -eq 0 ] || fail "rt ci ended with status ${ended[0]}, its last line being: $verdict"
[ "${ended[1]}${ended[2]}" = 00 ] || fail "rt ci's output could not be kept or shown"
[[ $verdict =~ ^[1-9][0-9]*\ passed,\ 0\ failed$ ]] || fail "rt ci's last line is: $verdict"
# A bad edit shows nothing, and rt ci lets it pass.
ok=$(grep '^rt: ok' "$kept") || fail "rt ci says nowhere 'rt: ok'"
[[ ! $ok =~ ,\ [0-9]+\ bad ]] || fail "must-fail edits are bad: $ok"

# ---- the archives, and the Rust side over them
began=$SECONDS
tools/archives.sh || fail "tools/archives.sh ended with status $?"
say "the example in C"
examples/c/check.sh || fail "examples/c/check.sh ended with status $?"
say "the crate in Rust"
host/cargo.sh test --release -p hannuvel || fail "cargo test of the crate in Rust ended with status $?"
say "the desk tool"
INSTA_UPDATE=no host/cargo.sh test --release -p hannuvel-desk ||
    fail "cargo test of the desk tool ended with status $?"
(cd oracle && cargo test --release --offline) || fail "cargo test ended with status $?"
(cd oracle && cargo build --release --offline) || fail "cargo build ended with status $?"

compare() { # SUITE OPTIONS..
    say "compare $*"
    "$CARGO_TARGET_DIR/release/compare" "$@" || fail "compare $* ended with status $?"
}
# A suite whose call is not in the archive fails.
compare leaves --count 20000 --random-only
compare blocks --count 20000
compare drawings --count 20000
compare clips --count 20000
compare evaluate --count 20000
compare marks --count 20000
compare karaoke --count 20000 --random-only
compare progress --count 20000 --random-only
compare styles --count 20000 --random-only

say "rt ci took $proving s, the Rust side $((SECONDS - began)) s; rt ci's output is in target/ci.log"
printf '%s\n' "$verdict"
