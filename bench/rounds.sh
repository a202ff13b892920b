#!/usr/bin/env bash
# What rounds of dispatch cost: the program `dispatch_speed` (its path is the first argument) dispatches drivers over a starter that scans nothing.
# `wide N` has N drivers that need nothing, so one round; `rounds N` has N drivers each of which needs the next, so N rounds. It prints the best of
# 5 times, without the time of no drivers, which stands in front; for `wide` also what a driver takes, and the ratio of the two. Wanted: a ratio near
# 1 from 1000 to 4000 drivers, and 1000 rounds within a second.
set -eu
program=$(realpath "${1:-$(dirname "$0")/../crates/dispatch_speed/out/dispatch_speed}")

# best WORD..: sets `time` to the best of 5 times in microseconds of the program with these words.
best() {
    local round from took
    time=
    for round in 1 2 3 4 5; do
        from=${EPOCHREALTIME/[.,]/}
        told=$("$program" "$@")
        took=$((${EPOCHREALTIME/[.,]/} - from))
        if [ -z "$time" ] || [ "$took" -lt "$time" ]; then time=$took; fi
    done
}

# row WORD N: prints what N drivers of this shape take, and sets `each` to that by driver in nanoseconds.
row() {
    best "$@"
    time=$((time > start ? time - start : 0))
    each=$((time * 1000 / $2))
    awk -v words="$*" -v told="$told" -v t="$time" -v each="$each" 'BEGIN {
        printf "%s: %.1f ms, %.2f us a driver (%s)\n", words, t / 1000, each / 1000, told
    }'
}

"$program" wide 0 > /dev/null
best wide 0
start=$time
awk -v t="$start" 'BEGIN { printf "start of the program: %.1f ms\n", t / 1000 }'
row wide 1000
few=$each
row wide 4000
awk -v few="$few" -v many="$each" 'BEGIN { if (few > 0) printf "ratio a driver: %.2f\n", many / few }'
row rounds 1000
