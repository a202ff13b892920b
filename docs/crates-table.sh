#!/usr/bin/env bash
# Prints the table of docs/CRATES.md: each crate of crates.txt with its floor, what it promises (the second sentence of its root
# file), and its lines: of code with contracts (tests apart), of tests, of definitions, of proofs; and its must-fail edits.
set -u
cd "$(dirname "$0")/.." || exit 1
lines() { cat "$@" 2>/dev/null | wc -l; }

echo '| Crate | Floor | What it promises | Code | Tests | Specs | Proofs | Edits |'
echo '|---|---|---|---|---|---|---|---|'
floor=
while read -r line; do
    case $line in
    '# '*:*) floor=${line#\# } floor=${floor%%:*} ;;
    '' | '#'*) ;;
    *)
        crate=${line%%:*}
        folder=crates/$crate
        root=$folder/src/lib.rt
        [ -f "$root" ] || root=$folder/src/main.rt
        promise=$(sed -n 's|^//! \{0,1\}||p' "$root" | tr '\n' ' ' | sed 's/^Floor: [a-z ]*\. //; s/\. .*$/./; s/^It promises //')
        all=$(lines $folder/src/*.rt)
        tests=$(lines $(ls $folder/src/*tests*.rt $folder/src/*samples*.rt 2>/dev/null) </dev/null)
        case $crate in *_tests) tests=$all ;; esac
        echo "| \`$crate\` | $floor | $promise | $((all - tests)) | $tests | $(lines $(find $folder/specs -name '*.antt' 2>/dev/null) </dev/null) | $(lines $(find $folder/proofs -name '*.antt' 2>/dev/null) </dev/null) | $(ls $folder/must-fail/*.edit 2>/dev/null | wc -l) |"
        ;;
    esac
done <crates.txt
