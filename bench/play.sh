#!/usr/bin/env bash
# Times `smc play` on a schedule of 100,000 lines on one region: sections, adds, look-ups, reads and removals. Prints the
# best of five runs, and how many lines that is a second.
set -euo pipefail
top=$(dirname "$(dirname "$(readlink -f "$0")")")
source "$top/bench/best.sh"
file=$(mktemp)
trap 'rm -f "$file"' EXIT
awk 'BEGIN {
  print "shape 2 1 4096"
  for (i = 0; i < 12500; i++) {
    printf "%d enter !\n", i % 2
    printf "%d add n%d %d %d !\n%d look n%d !\n%d read n%d 0 !\n%d look n%d !\n%d remove n%d !\n", i % 2, i, i % 4096, i, i % 2, i, i % 2, i, i % 2, i, i % 2, i
    printf "%d leave !\n%d advance !\n", i % 2, i % 2
  }
}' | head -100000 >"$file"
"$top/smc" play <"$file" >/dev/null 2>&1 || true # builds it where that is needed, and warms the file

ours=$(best "$top/crates/smc_run/out/smc_run" play)
echo "smc play        $ours s for $(wc -l <"$file") lines"
awk -v a="$ours" -v n="$(wc -l <"$file")" 'BEGIN { printf "lines a second  %.0f\n", n / a }'
