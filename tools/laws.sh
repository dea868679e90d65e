#!/usr/bin/env bash
# Writes the proofs that each kind of step keeps the agreement, from the tables beside this file, and lays them out.
#
#   tools/laws.sh           writes them, and their checksums
#   tools/laws.sh --sum     writes the checksums alone, into laws.sum: those of the tables and of each file that was written
#   tools/laws.sh --check   compares them with what stands there, in a second; .ci/run ends with it
#
# kinds.py has the kinds of step, facts.py the facts, special.py what single goals are told beside the default; the files
# that end in _scans and _marks are the same for scans, those that end in _uses for the users of slots. With a proved
# crate below it takes some minutes; `git diff` then shows what an edit of a table has changed. So a table and what it
# writes go into one commit with their checksums, and neither changes by hand alone. `--sum` is for a tree in which they
# have been written already, as after a merge.
set -e
top=$(dirname "$(dirname "$(readlink -f "$0")")")
cd "$top"

sums() {
  {
    # these write no proof
    ls tools/*.py tools/*.txt | grep -v -e /examples.py -e /hostile.py -e /theorems.py -e /random_queries.py -e /sizes.py
    ls crates/smc_inv_slot/proofs/Lib.antt crates/smc_inv_move/proofs/Lib.antt
    grep -rl --include='*.antt' 'Written by tools/' crates/*/proofs
  } | LC_ALL=C sort | xargs sha256sum
}

case ${1-} in
  --sum)
    sums >tools/laws.sum
    exit
    ;;
  --check)
    sums | diff tools/laws.sum - && exit
    echo 'tools/laws.sh: a table or a text that was written from it has changed without the other' >&2
    exit 1
    ;;
esac

python3 tools/dispatch.py
python3 tools/dispatch_steps.py
python3 tools/laws.py smc_inv_slot claims objects records >crates/smc_inv_slot/proofs/Lib.antt
python3 tools/laws.py smc_inv_move calls copies moves >crates/smc_inv_move/proofs/Lib.antt
python3 tools/laws.py smc_inv_scan scans >/dev/null
python3 tools/laws.py smc_inv_use uses >/dev/null
python3 tools/marks.py
for crate in smc_agreement smc_inv_slot smc_inv_move smc_inv_scan smc_inv_use; do
  (cd "crates/$crate" && rt tidy)
done
sums >tools/laws.sum
