#!/usr/bin/env bash
# peers.sh PEERS [SCALE]: times `smc run` beside what a user would take instead, over the same tables at this scale of TPC-H:
# hand-written engines in Rust and C++, Java's objects and SQLite. PEERS is a folder with their sources, a script
# `run_peers.sh SCALE ROUNDS NAMES` that builds and runs them, and `smc_bench.py`, which times the program and prints the ratios.
# They are copied to a folder of their own, and nothing of them stands here.
set -euo pipefail
peers=$(readlink -f "${1:?peers.sh PEERS [SCALE]}")
scale=${2:-0.1}
cd "$(dirname "$0")/.."
./smc run </dev/null # proves and builds the program where that is needed
program=$PWD/crates/smc_run/out/smc_run
folder=${PEERS_OUT:-$(mktemp -d)}
cp -r "$peers/." "$folder"
cd "$folder"
echo "load $(cut -d' ' -f1-3 /proc/loadavg)"
./run_peers.sh "$scale" 2 "rs ceil java sqlite" >/dev/null
./smc_bench.py --smc "$program" --sf "$scale" --rounds 2
