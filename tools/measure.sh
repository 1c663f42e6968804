#!/bin/sh
# Prints the lines of source, specs and proofs of each crate (the source of ttx_tests is tests) and its mutants.
cd "$(dirname "$0")/.." || exit 1
lines() { find "$@" 2>/dev/null -type f | xargs cat 2>/dev/null | wc -l; }
printf '| crate | source | specs | proofs | mutants |\n|---|---|---|---|---|\n'
for crate in $(sed -n 's/^\([a-z_]*\):.*/\1/p' crates.txt); do
    folder=crates/$crate
    source=$(lines "$folder/src" -name '*.rt')
    specs=$(lines "$folder/specs" -name '*.antt')
    proofs=$(lines "$folder/proofs" -name '*.antt')
    bodies=$(cat "$folder"/must-fail/*.edit 2>/dev/null | grep -c '^# ')
    printf '| %s | %s | %s | %s | %s |\n' "$crate" "$source" "$specs" "$proofs" "$bodies"
done
