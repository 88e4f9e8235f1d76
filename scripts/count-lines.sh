#!/usr/bin/env bash
# Prints a row for each crate: lines of code, tests, specs and proofs, and the number of wrong bodies, in the gate and beside it.
set -euo pipefail
cd "$(dirname "$0")/.."

lines() {
    xargs -r -0 cat -- | wc -l
}

for crate in crates/*/; do
    name=$(basename "$crate")
    code=$(find "${crate}src" -name '*.rt' ! -name tests.rt ! -path '*/tests/*' -print0 | lines)
    tests=$(find "${crate}src" -name '*.rt' \( -name tests.rt -o -path '*/tests/*' \) -print0 | lines)
    specs=$(find "$crate" -path "${crate}specs/*.antt" -print0 | lines)
    proofs=$(find "$crate" -path "${crate}proofs/*.antt" -print0 | lines)
    edits=$(find "$crate" -path "${crate}must-fail*/*.edit" | wc -l)
    echo "| \`$name\` | $code | $tests | $specs | $proofs | $edits |"
done
