#!/usr/bin/env bash
# What an entry costs the built program (its path is the first argument), over scripts of 1,024 and of 8,192 rings:
# "small" fills and rings one version request of 32 bytes for each entry, "full" rings one request of 4,096 bytes that
# nobody answers. It prints the best of 5 times for each entry, without the time of a script without rings; the
# program's peak memory; and the ratio of an entry of the longer script to one of the shorter. Beside "full" it prints
# what `xxd -p` takes for as many bytes as were captured, 4,096 for each entry, without the time that it takes for none,
# and the ratio of the program to that. Then what texts cost: 1 and 4 MiB of comments, of lines of one character, of pokes, and of
# one long line, as the best of 5 times for each MiB, the ratio of the longer to the shorter, and what `wc -w` takes for the same.
set -eu
program=$(realpath "${1:-$(dirname "$0")/../crates/mm_main/out/mm_main}")
folder=$(mktemp -d)
trap 'rm -rf "$folder"' EXIT
cd "$folder"
guid=31564d4d010000408000000000000001
nobody=11111111222233334444555555555555

# best REPEATS COMMAND..: sets `time` to the best of 5 times in microseconds, each the mean of so many runs.
best() {
    local repeats=$1 round from took run
    shift
    time=
    for round in 1 2 3 4 5; do
        from=${EPOCHREALTIME/[.,]/}
        for ((run = 0; run < repeats; run++)); do "$@" > report; done
        took=$(((${EPOCHREALTIME/[.,]/} - from) / repeats))
        if [ -z "$time" ] || [ "$took" -lt "$time" ]; then time=$took; fi
    done
}

# ratio A B: A / B with two digits behind the point.
ratio() { awk -v a="$1" -v b="$2" 'BEGIN { printf "%.2f", a / b }'; }

# per_entry MICROSECONDS ENTRIES: the time of an entry.
per_entry() { echo "$(ratio "$1" "$2") us an entry"; }

echo 'lanes 1 4' > none.script
best 50 "$program" script none.script
start=$time
best 50 xxd -p /dev/null
xxd_start=$time
echo "a script without rings: $start us; xxd -p of no bytes: $xxd_start us"

request="$guid$(printf '08%030d' 0)"
full="$nobody$(printf '%08160d' 0)"
for kind in small full; do
    for count in 1024 8192; do
        case $kind in
        small)
            echo 'lanes 1 4'
            for ((i = 0; i < count; i++)); do printf 'fill 0 %s\nring 0\nrun 0\n' "$request"; done
            ;;
        full)
            printf 'lanes 1 512\nfill 0 %s\n' "$full"
            for ((i = 0; i < count; i++)); do printf 'ring 0\nrun 0\n'; done
            ;;
        esac > "$kind.script"
        best $((8192 / count)) "$program" script "$kind.script"
        net=$((time - start))
        memory=$(/usr/bin/time -f %M "$program" script "$kind.script" 2>&1 > report)
        if [ "$(grep -c '^entry' report)" != "$count" ]; then
            echo "$kind: not $count entries" >&2
            exit 1
        fi
        echo "$kind, $count entries: $(per_entry $net $count), peak memory $memory KiB"
        if [ "$kind" = full ]; then
            head -c $((4096 * count)) /dev/urandom > captured
            best $((8192 / count)) xxd -p captured
            xxd_net=$((time - xxd_start))
            echo "xxd -p of as many bytes: $(per_entry $xxd_net $count); ratio $(ratio $net $xxd_net)"
        fi
        if [ "$count" = 1024 ]; then short=$net; else echo "$kind, ratio an entry: $(ratio $net $((8 * short)))"; fi
    done
done

# text KIND BYTES: a script of so many bytes, most of them lines of this kind.
text() {
    local line
    echo 'lanes 1 4'
    case $1 in
    comments) line='# nothing that anybody reads, and as long as most lines of a script are' ;;
    characters) line='#' ;;
    pokes) line='poke 0 5 ffffffffffffffff' ;;
    esac
    if [ "$1" = "one line" ]; then
        printf '# %*s\n' $(($2 - 20)) x
    else
        yes "$line" | head -c $(($2 - 20)) | head -n -1
    fi
}

for kind in comments characters pokes "one line"; do
    for size in 1 4; do
        text "$kind" $((size * 1048576)) > text.script
        best 5 "$program" script text.script
        net=$(((time - start) / size))
        best 5 wc -w text.script
        wc_net=$((time / size))
        echo "$size MiB of $kind: $net us a MiB; wc -w $wc_net us, ratio $(ratio $net $wc_net)"
        if [ "$size" = 1 ]; then short=$net; else echo "$kind, ratio a MiB: $(ratio $net $short)"; fi
    done
done
