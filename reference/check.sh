#!/bin/sh
# Builds both programs, makes all sets anew, and compares them and what the reference program says of them with what is stored: the first sets
# here, and the larger collection with the crate `agreement`, which has to print what the reference program says of it.
set -eu
cd "$(dirname "$0")/.."
# where rustup puts rustc, if nothing else does
command -v rustc >/dev/null || PATH="$PATH:${HOME:-}/.cargo/bin"
made=$(mktemp -d)
trap 'rm -rf "$made"' EXIT
rustc -O --edition 2021 --out-dir "$made" reference/generate.rs
rustc -O --edition 2021 --out-dir "$made" reference/reference.rs

# same FOLDER STORED: the folder's sets and what is said of them as they are made are as they are stored
same() {
    for name in sets shapes misfits contents statistics; do
        cmp "$1/$name.txt" "$2/$name.txt"
    done
}

mkdir "$made/first" "$made/more"
"$made/generate" "$made/first" >"$made/first/statistics.txt"
same "$made/first" reference
for name in sets shapes misfits; do
    "$made/reference" reference/$name.txt >"$made/first/said.txt"
    cmp "$made/first/said.txt" reference/$name-expected.txt
done

"$made/generate" --more "$made/more" >"$made/more/statistics.txt"
same "$made/more" crates/agreement/data
(cd crates/agreement/data && "$made/reference" sets.txt shapes.txt misfits.txt) >"$made/more/said.txt"
cmp "$made/more/said.txt" crates/agreement/stdout
echo "reference: all files are as they are made"
