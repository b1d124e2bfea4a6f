#!/usr/bin/env bash
# Measures the language of index definitions: definitions read, and documents mapped, in a second.
# Usage: bench/index-language/run.sh [SCRATCH]. It builds in the folder SCRATCH, or in a new one below /tmp, and changes nothing here.
set -euo pipefail
here=$(cd "$(dirname "$0")" && pwd)
source "$here/../scratch.sh"
scratch=${1:-$(mktemp -d /tmp/index_bench.XXXXXX)}
needed=$(with_needed raven_json index_lang map_stage)
ported="serde_json json jiff_core jiff_fmt thiserror"
mkdir -p "$scratch/crates/index_bench/src" "$scratch/crates/index_bench/proofs/time_mapping"
copy_crates "$scratch" $needed
cp "$here/main.txt" "$scratch/crates/index_bench/src/main.rt"
cp "$here/time_mapping.antt.txt" "$scratch/crates/index_bench/proofs/time_mapping/Invariants.antt"
echo "index_bench:" $needed $ported anyhow >>"$scratch/crates.txt"
build "$scratch" index_bench parse mixed
bench=$scratch/crates/index_bench/out/index_bench
print_machine
for kind in mixed sums long; do
    "$bench" parse "$kind"
done
for map in names prices months; do
    "$bench" map "$map" 10000
done
