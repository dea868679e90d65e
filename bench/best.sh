# shellcheck shell=bash
# best COMMAND..: the shortest of five runs of it over $file, in seconds. The benches read this file.
best() {
  for _ in 1 2 3 4 5; do
    local start=$EPOCHREALTIME
    "$@" <"$file" >/dev/null
    echo "$EPOCHREALTIME $start"
  done | awk '{ t = $1 - $2; if (NR == 1 || t < best) best = t } END { printf "%.3f\n", best }'
}
