#!/usr/bin/env bash
# Tries the wrong bodies that the gate leaves out, crates/NAME/must-fail-too: those of the crates that are named, or all.
# It proves the libraries below first, where nothing kept fits. The status is 0 where the prover refuses each.
set -euo pipefail
cd "$(dirname "$0")/.."
top=$PWD
room=$(mktemp -d)
trap 'rm -rf "$room"' EXIT
cp crates.txt HANDLES "$room"
for crate in crates/*/; do
    name=$(basename "$crate")
    mkdir -p "$top/$crate/out" "$room/$crate"
    for part in src specs proofs out; do
        if [ -d "$crate/$part" ]; then ln -s "$top/$crate$part" "$room/$crate$part"; fi
    done
    if [ -d "$crate/must-fail-too" ]; then ln -s "$top/${crate}must-fail-too" "$room/${crate}must-fail"; fi
done
cd "$room"
rt must-fail "$@"
