#!/usr/bin/env bash
# run.sh FOLDER: loads the eight tables of FOLDER (TABLE.tbl, as TPC-H's dbgen writes them), and times four queries, a delete and
# a compaction in `smc run`. Each figure is the processor time of the whole run less that of the run that loads alone.
folder=$(readlink -f "${1:?run.sh FOLDER}")
cd "$(dirname "$0")/.." || exit
./smc run </dev/null || exit
program=$PWD/crates/smc_run/out/smc_run
tables="region nation supplier customer part partsupp orders lineitem"
script=$(mktemp) out=$(mktemp)
trap 'rm -f "$script" "$out"' EXIT
cd "$folder" || exit
rows=0
for table in $tables; do
  lines=$(wc -l <"$table.tbl")
  rows=$((rows + lines))
  echo "room $table $((lines > 64 ? lines : 64))"
done >"$script"
items=$(wc -l <lineitem.tbl)
for table in $tables; do echo "load $table $table.tbl"; done >>"$script"

# The processor seconds and the kilobytes of a run of the script with these lines behind it.
run() {
  { cat "$script"; printf '%s\n' "$@"; } | /usr/bin/time -f '%U %S %M' "$program" run 2>"$out" >/dev/null || { cat "$out"; exit 1; }
  awk '{ print $1 + $2, $3 }' "$out"
}
read -r load kilobytes < <(run "stat region")
echo "load: $rows rows in $load s; $((kilobytes * 1024 / rows)) bytes a row"
while read -r name line; do
  read -r all _ < <(run "$line")
  echo "$name: $(awk -v a="$all" -v l="$load" -v n="$items" 'BEGIN { printf "%.3f s, %.0f ns a lineitem", a - l, (a - l) * 1e9 / n }')"
done <<'LINES'
Q1 query from lineitem where shipdate <= 1998-12-01 - 90 by returnflag, linestatus show sum(quantity), sum(extendedprice), sum(extendedprice * (1 - discount)), sum(extendedprice * (1 - discount) * (1 + tax)), avg(quantity), avg(extendedprice), avg(discount), count() sort returnflag, linestatus
Q3 query from lineitem where order.customer.mktsegment = 'BUILDING' and order.orderdate < 1995-03-15 and shipdate > 1995-03-15 by orderkey, order.orderdate, order.shippriority show sum(extendedprice * (1 - discount)) as revenue sort revenue desc, order.orderdate first 10
Q5 query from lineitem where supplier.nation.region.name = 'ASIA' and order.orderdate >= 1994-01-01 and order.orderdate < 1995-01-01 and order.customer.nationkey = supplier.nationkey by supplier.nation.name show sum(extendedprice * (1 - discount)) as revenue sort revenue desc
Q6 query from lineitem where shipdate >= 1994-01-01 and shipdate < 1995-01-01 and discount between 0.05 and 0.07 and quantity < 24 show sum(extendedprice * discount)
update update lineitem set discount = discount + 0.01
delete delete lineitem where shipdate < 1995-01-01
LINES
read -r deleted _ < <(run "delete lineitem where shipdate < 1995-01-01")
read -r packed _ < <(run "delete lineitem where shipdate < 1995-01-01" "compact lineitem")
echo "compact: $(awk -v a="$packed" -v d="$deleted" 'BEGIN { printf "%.3f s", a - d }')"
