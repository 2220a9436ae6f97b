#!/usr/bin/env bash
# Shows what libass draws for the rows of `rows`, or of the files given. Its status is 1 if a row is not as marked.
set -euo pipefail
here=$(cd "$(dirname "${BASH_SOURCE[0]}")" && pwd)

stop() {
    printf 'oracle/libass/run.sh: %s\n' "$*" >&2
    exit 2
}

for tool in gcc pkg-config fc-list; do
    command -v "$tool" >/dev/null || stop "$tool is missing. Type: sudo apt-get install gcc pkg-config fontconfig"
done
pkg-config --exists libass || stop "libass is missing. Type: sudo apt-get install libass-dev"
for font in "DejaVu Sans" "DejaVu Sans:bold" "DejaVu Serif"; do
    [ -n "$(fc-list "$font")" ] || stop "$font is missing. Type: sudo apt-get install fonts-dejavu-core"
done

build=$(mktemp -d)
trap 'rm -rf "$build"' EXIT
read -ra flags <<<"$(pkg-config --cflags --libs libass)"
gcc -O2 -Wall -Wextra -o "$build/probe" "$here/probe.c" "${flags[@]}"
cat -- "${@:-$here/rows}" | "$build/probe"
