#!/usr/bin/env bash
# Times `smc_tbl::next_words` on 600,000 rows of lineitem, or on those of the file that is given, beside a hand-written
# Rust reader that goes from the same lines to the same words with no allocation (bench/load.rs): the processor time of
# each, the best of seven runs in turn, and their ratio.
set -euo pipefail
top=$(dirname "$(dirname "$(readlink -f "$0")")")
rows=600000
folder=$(mktemp -d)
trap 'rm -rf "$folder"' EXIT
file=${1:-$folder/lineitem.tbl}
if [ $# -eq 0 ]; then
  awk -v rows=$rows 'BEGIN {
    srand(1)
    split("DELIVER IN PERSON,COLLECT COD,NONE,TAKE BACK RETURN", how, ",")
    split("TRUCK,RAIL,AIR,REG AIR,MAIL,SHIP,FOB", by, ",")
    split("carefully,final,deposits,quickly,ironic,requests,among the,express,foxes", word, ",")
    for (i = 1; i <= rows; i++) {
      comment = word[1 + int(rand() * 9)] " " word[1 + int(rand() * 9)] " " word[1 + int(rand() * 9)]
      printf "%d|%d|%d|%d|%d|%d.%02d|0.%02d|0.%02d|%s|%s|199%d-%02d-%02d|199%d-%02d-%02d|199%d-%02d-%02d|%s|%s|%s|\n",
        1 + int(i / 4), 1 + int(rand() * 20000), 1 + int(rand() * 1000), 1 + i % 4, 1 + int(rand() * 50),
        900 + int(rand() * 90000), int(rand() * 100), int(rand() * 11), int(rand() * 9),
        substr("ANR", 1 + int(rand() * 3), 1), substr("OF", 1 + int(rand() * 2), 1),
        2 + int(rand() * 7), 1 + int(rand() * 12), 1 + int(rand() * 28), 2 + int(rand() * 7), 1 + int(rand() * 12),
        1 + int(rand() * 28), 2 + int(rand() * 7), 1 + int(rand() * 12), 1 + int(rand() * 28),
        how[1 + int(rand() * 4)], by[1 + int(rand() * 7)], comment
    } }' >"$file"
fi
(cd "$top/crates/bench_load" && rt run) >/dev/null # proves and builds it where that is needed
program=$top/crates/bench_load/out/bench_load
rustc -O -o "$folder/load" "$top/bench/load.rs"
[ "$("$program" <"$file")" = "$("$folder/load" <"$file")" ] || { echo "the two make different words" >&2; exit 1; }

TIMEFORMAT='%U %S'
spent() { # the processor time of a command, in seconds
  { time "$@" <"$file" >/dev/null; } 2>&1 | awk '{ print $1 + $2 }'
}

for _ in 1 2 3 4 5 6 7; do
  echo "$(spent "$program") $(spent "$folder/load")"
done | awk -v rows="$(wc -l <"$file")" '
  NR == 1 || $1 < ours { ours = $1 }
  NR == 1 || $2 < theirs { theirs = $2 }
  END {
    printf "smc_tbl::next_words  %.0f ns/row\n", ours / rows * 1e9
    printf "hand-written reader  %.0f ns/row\n", theirs / rows * 1e9
    printf "ratio                %.2f\n", ours / theirs }'
