#!/usr/bin/env bash
# Measures paged_map beside std's BTreeMap, changed in place: nanoseconds for each insertion and look-up, bytes for each pair.
# Usage: bench/paged_map/run.sh [SCRATCH]. It builds in the folder SCRATCH, or in a new one below /tmp, and changes nothing here.
set -euo pipefail
here=$(cd "$(dirname "$0")" && pwd)
source "$here/../scratch.sh"
scratch=${1:-$(mktemp -d /tmp/paged_bench.XXXXXX)}
mkdir -p "$scratch/crates/paged_bench/src"
copy_crates "$scratch" raven_base paged_map
cp "$here/main.txt" "$scratch/crates/paged_bench/src/main.rt"
cp "$here/text.txt" "$scratch/crates/paged_bench/src/text.rt"
echo "paged_bench: raven_base paged_map anyhow" >>"$scratch/crates.txt"
build "$scratch" paged_bench with u64 1000
bench=$scratch/crates/paged_bench/out/paged_bench
if command -v rustc >/dev/null; then
    rustc -O --edition 2021 -o "$scratch/rust_tree" "$here/rust_tree.rs"
fi
print_machine
echo "map key pairs ns/insertion ns/lookup bytes/pair"
for key in u64 text; do
    for count in 1000 30000 1000000; do
        "$bench" with "$key" "$count"
        "$bench" put "$key" "$count"
        "$bench" tree "$key" "$count"
        if [ -x "$scratch/rust_tree" ]; then "$scratch/rust_tree" "$key" "$count"; fi
    done
done
