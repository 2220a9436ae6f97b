#!/usr/bin/env bash
# Instructions of one call by valgrind, for the library and for the Rust, by kind and size of the input.
# Usage: ./cost.sh [KIND..]; default: all of them. Sizes are bytes of a text or records of a table.
set -euo pipefail
shopt -s inherit_errexit
cd "$(dirname "${BASH_SOURCE[0]}")"
command -v valgrind >/dev/null || { echo "cost.sh: valgrind is not on PATH" >&2; exit 2; }
cargo build --profile measure --offline --quiet
compare=${CARGO_TARGET_DIR:-target}/measure/compare

total() { # KIND SIZE SIDE TIMES
    local out
    out=$(valgrind --tool=callgrind --callgrind-out-file=/dev/null "$compare" cost "$@" 2>&1) || { echo "$out" >&2; exit 1; }
    printf '%s\n' "$out" | sed -n 's/.*Collected : \([0-9]*\).*/\1/p'
}
# what ten further calls cost, a call
one() { # KIND SIZE SIDE
    local few many
    few=$(total "$1" "$2" "$3" 1)
    many=$(total "$1" "$2" "$3" 11)
    echo $(((many - few) / 10))
}
sizes() { # KIND
    case $1 in
    evaluate-* | marks-* | spans*) echo 1 10 100 1000 ;;
    *) echo 30 60 140 1024 12288 ;;
    esac
}

texts="typical flat exponents nested deeper unclosed lines drawn-exponents spline clip scaled"
tables="evaluate-flat evaluate-nested evaluate-deeper marks-flat marks-nested marks-deeper"
tables+=" spans spans-nested spans-deeper"
printf '%-15s %6s %12s %12s %10s %10s\n' kind size library rust lib/size rust/lib
for kind in "${@:-$texts $tables}"; do
    for k in $kind; do
        for size in $(sizes "$k"); do
            library=$(one "$k" "$size" library)
            rust=$(one "$k" "$size" rust)
            hundredths=$((100 * rust / library))
            printf '%-15s %6d %12d %12d %10d %7d.%02d\n' "$k" "$size" "$library" "$rust" \
                $((library / size)) $((hundredths / 100)) $((hundredths % 100))
        done
    done
done
