#!/usr/bin/env bash
# What a unit of byte code costs over a flat bus, and over the domain of an image: the program `ebc_speed` (its path is the first argument) makes
# 10,000,000 units of a loop of moves, sums, jumps and calls in equal parts. It prints the best of 5 times for each unit, without the time of no
# units, and beside it what `xxd -p` takes for a byte of 10,000,000, without the time that it takes for none, and the ratio of the two. Wanted:
# at most 25 ns over a flat bus and 60 ns over a domain where `xxd -p` takes 8, ratios of 3.1 and 7.5.
set -eu
program=$(realpath "${1:-$(dirname "$0")/../crates/ebc_speed/out/ebc_speed}")
folder=$(mktemp -d)
trap 'rm -rf "$folder"' EXIT
cd "$folder"
units=10000000

# best COMMAND..: sets `time` to the best of 5 times in microseconds.
best() {
    local round from took
    time=
    for round in 1 2 3 4 5; do
        from=${EPOCHREALTIME/[.,]/}
        "$@" > report
        took=$((${EPOCHREALTIME/[.,]/} - from))
        if [ -z "$time" ] || [ "$took" -lt "$time" ]; then time=$took; fi
    done
}

# row NAME WORD..: prints the row of the loop that these words ask for.
row() {
    local name=$1 start
    shift
    best "$program" 0 "$@"
    start=$time
    best "$program" "$units" "$@"
    awk -v name="$name" -v m=$((time - start)) -v d="$dump" -v n="$units" 'BEGIN {
        printf "%s: %.1f ns a unit; xxd -p: %.1f ns a byte; ratio %.2f\n", name, m * 1000 / n, d * 1000 / n, m / d
    }'
}

head -c "$units" /dev/urandom > bytes
best xxd -p /dev/null
start=$time
best xxd -p bytes
dump=$((time - start))
row "flat bus"
row "domain" domain
