#!/usr/bin/env bash
# What the gate doesn't see of the repository's own rules; fails where one is broken.
#  - Each name of a clause stands in docs/CONTRACTS.md, for its crate or for all.
#  - What std's growing calls answer is named in mm_base alone, so that out of memory can't be made up anywhere else.
#  - Words of definitions that only private contracts cite say so in their first line, and no public function's contract cites them.
#  - Each crate says its floor in the first line of its root file, the one that crates.txt has it on.
set -u
cd "$(dirname "$0")/.." || exit 1
failed=0
say() { printf 'house: %s\n' "$*"; failed=1; }

# the names of clauses, against the page that lists them
names_of() { # the names of the clauses in a crate's sources
    grep -hoE '^[[:space:]]*(ensures|requires)\*? [a-z_0-9]+ \{' crates/"$1"/src/*.rt 2>/dev/null | awk '{ print $2 }' | sort -u
}
listed() { # the names that the page lists under a heading
    awk -v heading="## $1" '$0 == heading { on = 1; next } /^## / { on = 0 } on' docs/CONTRACTS.md |
        grep -oE '^[|-] `[^|]*`' | grep -oE '`[a-z_0-9]+`' | tr -d '`' | sort -u
}
common=$(listed 'All crates')
for folder in crates/*/; do
    crate=$(basename "$folder")
    unknown=$(comm -23 <(names_of "$crate") <(printf '%s\n%s\n' "$common" "$(listed "$crate")" | sort -u))
    [ -z "$unknown" ] || say "clauses of $crate that docs/CONTRACTS.md doesn't list: $(echo $unknown)"
done

# out of memory
growth=$(grep -lE 'AllocError|AllocFailed' -r crates --include='*.rt' --include='*.antt' | grep -v '/out/' | grep -v '^crates/mm_base/')
[ -z "$growth" ] || say "files outside mm_base that name what std's growing calls answer: $(echo $growth)"

# words for private contracts
for file in $(find crates -path '*/specs/*' -name '*Inside.antt' -not -path '*/out/*'); do
    [ "$(head -n 1 "$file")" = "-- No public clause cites this file." ] || say "$file doesn't begin with the line that says so"
done

# floors
floor=
while read -r line; do
    case $line in
    '# '*:*) floor=${line#\# } floor=${floor%%:*} ;;
    '' | '#'*) ;;
    *)
        crate=${line%%:*}
        root=crates/$crate/src/lib.rt
        [ -f "$root" ] || root=crates/$crate/src/main.rt
        [ -f "$root" ] || { say "$crate has no root file"; continue; }
        head -n 1 "$root" | grep -q "^//! Floor: $floor\." || say "$root doesn't begin with '//! Floor: $floor.'"
        ;;
    esac
done <crates.txt
[ "$failed" = 0 ] && echo "house: the repository keeps its own rules"
exit "$failed"
