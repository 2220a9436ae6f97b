#!/usr/bin/env bash
# Builds the example by the line that README.md gives, runs it and compares what it prints with `expected`.
set -euo pipefail
cd "$(dirname "${BASH_SOURCE[0]}")/../.."

eval "$(grep '^    gcc ' examples/c/README.md)"

run() { # ARGUMENTS..
    local status=0
    target/block "$@" || status=$?
    printf 'status %s\n\n' "$status"
}
{
    run '{\fs20\t(0,1000,\fs40)}' Default 2000 0 500 1000
    run '\fad(200,300)\pos(1,2)' Default 1000 -5 100 850
    run ' {\fs20.5\c&H0000FF&\t(0,1000,0.5,\fs40\t(\frz-45))\fnArial(x)\iclip(3,4,1,2)\pbo-50}' Default 2000 250
    run '\rTop\clip(2,m 0 0 l 10 0 10 10 c)\an8' Default 500 0
    run '\t(500,500,\b1)\move(0,0,10,10,100,102)' Default 1000 101 500
    run '{\k50\t(\k99)\kf25\rTop\ko5}' Default 1000 250 625 800
    run '{\kf50\k20}' Default 1000 250
    run '{\fad(20,30)\k10\k10\kf0\k50\kf100\k10}' Default 1000
    run '{\k50}' Default 1000
    run '\t(500,600,\rTop)' Default 1000 500 501
    run "$(printf '\\t(%.0s' {1..9})\\b1" Default 1000 1000
    run 'no tag' Default 1000 0
    run '\fs1e2\pos(1.25e2,2.5E-3)\clip(m 0 0 l 1e2 0)' Default 1000 0
    run '\pos(x,1e9)' Default 1000
    run '\fs20' Default 1000 2000000000
    run "$(printf '\\b1%.0s' {1..65})" Default 1000
} | diff -u examples/c/expected -
