#!/usr/bin/env bash
# Times ten million sections that are entered and left, and eighty million loads of an object's fields by
# `Section::act`, beside hand-written Rust that does the same atomic steps (bench/act.rs); counts the
# instructions of each, and prints the machine code of both loops.
set -euo pipefail
top=$(dirname "$(dirname "$(readlink -f "$0")")")
source "$top/bench/best.sh"
program=$top/crates/bench_region/out/bench_region
file=/dev/null # the programs read no input
folder=$(mktemp -d)
trap 'rm -rf "$folder"' EXIT
(cd "$top/crates/bench_region" && rt run) >/dev/null # proves and builds it where that is needed
rustc -O -o "$folder/act" "$top/bench/act.rs"

instructions() { # how many a command takes
  valgrind --tool=callgrind --callgrind-out-file="$folder/counts" "$@" 2>&1 | awk '/Collected/ { print $NF }'
}

compare() { # what is done, how often, the word for it
  local ours theirs
  ours=$(best "$program" "$3")
  theirs=$(best "$folder/act" "$3")
  awk -v what="$1" -v many="$2" -v a="$ours" -v b="$theirs" \
    -v i="$(instructions "$program" "$3")" -v j="$(instructions "$folder/act" "$3")" 'BEGIN {
    printf "%-16s ours %5.1f ns %5.1f instructions, by hand %5.1f ns %5.1f instructions, ratio %.2f\n",
      what, a / many * 1e9, i / many, b / many * 1e9, j / many, a / b }'
}

compare "enter and leave" 10000000 sections
compare "load of a field" 80000000 fields
objdump -d --no-show-raw-insn "$program.o" |
  awk '/enter_and_leave>:|read_fields>:/ { on = 1 } /^$/ { on = 0 } on'
