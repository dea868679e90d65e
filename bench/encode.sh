#!/usr/bin/env bash
# Times `smc_types::encode` on rows of lineitem (16 columns, 3 references, 28 words) beside a hand-written Rust loop over
# the same rows (bench/encode.rs): rows a second of each, the best of five runs, and their ratio.
set -euo pipefail
top=$(dirname "$(dirname "$(readlink -f "$0")")")
turns=100000 # of 64 rows each
program=$top/crates/bench_encode/out/bench_encode
loop=$(mktemp)
trap 'rm -f "$loop"' EXIT
(cd "$top/crates/bench_encode" && rt run -- 1) >/dev/null # proves and builds it where that is needed
rustc -O -o "$loop" "$top/bench/encode.rs"
[ "$("$program" 1000)" = "$("$loop" 1000)" ] || { echo "the two make different words" >&2; exit 1; }

best() { # the shortest of five runs of a command, in seconds
  for _ in 1 2 3 4 5; do
    local start=$EPOCHREALTIME
    "$@" >/dev/null
    echo "$EPOCHREALTIME $start"
  done | awk '{ t = $1 - $2; if (NR == 1 || t < best) best = t } END { printf "%.3f\n", best }'
}

ours=$(best "$program" $turns)
theirs=$(best "$loop" $turns)
awk -v a="$ours" -v b="$theirs" -v rows=$((turns * 64)) 'BEGIN {
  printf "smc_types::encode  %.0f rows/s\n", rows / a
  printf "hand-written loop  %.0f rows/s\n", rows / b
  printf "ratio              %.2f\n", a / b }'
