#!/usr/bin/env bash
# Times `smc tally lineitem` on 500,000 rows beside awk, which sums the first field of the same file, and beside a
# hand-written Rust reader that parses the sixteen columns of each row (bench/tbl.rs): the best of five runs of each, and
# the ratio to the reader.
set -euo pipefail
top=$(dirname "$(dirname "$(readlink -f "$0")")")
source "$top/bench/best.sh"
rows=500000
file=$(mktemp)
reader=$(mktemp)
trap 'rm -f "$file" "$reader"' EXIT
awk -v rows=$rows 'BEGIN { for (i = 1; i <= rows; i++) printf "%d|%d|%d|%d|%d|%d.%02d|0.0%d|0.0%d|N|O|1996-%02d-%02d|1996-02-12|1996-03-22|DELIVER IN PERSON|TRUCK|egular courts above the %d|\n", i, i % 200000, i % 10000, i % 7, i % 50, 900 + i % 90000, i % 100, i % 10, i % 9, 1 + i % 12, 1 + i % 28, i }' >"$file"
rustc -O -o "$reader" "$top/bench/tbl.rs"
"$top/smc" tally lineitem <"$file" 2>/dev/null # builds it where that is needed, and warms the file
[ "$("$top/smc" tally lineitem <"$file")" = "$("$reader" <"$file")" ] || { echo "the two give different sums" >&2; exit 1; }

ours=$(best "$top/crates/smc_run/out/smc_run" tally lineitem)
theirs=$(best "$reader")
sums=$(best awk -F'|' '{ sum += $1 } END { print NR, sum }')
awk -v a="$ours" -v b="$theirs" -v c="$sums" 'BEGIN {
  printf "smc tally lineitem   %.3f s\n", a
  printf "hand-written reader  %.3f s\n", b
  printf "awk                  %.3f s\n", c
  printf "ratio                %.2f\n", a / b }'
