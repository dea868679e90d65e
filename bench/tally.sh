#!/usr/bin/env bash
# Times `smc tally region` on 2,000,000 rows beside awk, which sums the first field of the same file: the best of five
# runs of each, and their ratio.
set -euo pipefail
top=$(dirname "$(dirname "$(readlink -f "$0")")")
source "$top/bench/best.sh"
rows=2000000
file=$(mktemp)
trap 'rm -f "$file"' EXIT
awk -v rows=$rows 'BEGIN { for (i = 0; i < rows; i++) printf "%d|REGION NAME %d|comment %d of a region|\n", i, i % 5, i }' >"$file"
"$top/smc" tally region <"$file" 2>/dev/null # builds it where that is needed, and warms the file

ours=$(best "$top/crates/smc_run/out/smc_run" tally region)
theirs=$(best awk -F'|' '{n++; s+=$1} END {print n, s}')
echo "smc tally region  $ours s"
echo "awk               $theirs s"
awk -v a="$ours" -v b="$theirs" 'BEGIN { printf "ratio             %.2f\n", a / b }'
