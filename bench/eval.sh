#!/usr/bin/env bash
# Times the evaluation of a function beside eval.rs, a plain walk over the same tree with the same checks, in one run:
# a loop of 10,000 turns with seven nodes each, at each of 2,000 records.
# Prints the least nanoseconds for a node of some rounds, and their ratio. Needs rustc.
set -eu
export LC_ALL=C
. "$(dirname "${BASH_SOURCE[0]}")/common.sh"
rounds=${1:-9}

# A record's evaluation begins 3 nodes and 7 in each turn.
nodes=$((2000 * (3 + 7 * 10000)))

script=$work/loop.muesli
cat >"$script" <<'SCRIPT'
muesli 1;
fun f(n) = loop i below 10000, a = n in (a * 31 + i) % 1000003;
main = atomic f;
SCRIPT
awk 'BEGIN { for (i = 0; i < 2000; i++) print i * 7919 }' >"$work/records"
compile eval

# The first call builds the program where it has to.
"$top/bin/muesli" check "$script" >"$work/checked"

# The nanoseconds for a node, of the seconds of a run.
nanoseconds() {
    awk "BEGIN { printf \"%.2f\", $1 * 1e9 / $nodes }"
}

alike "$work/records" muesli eval
run_in_turn "$work/records" muesli eval
ours=$(least "$work/times.muesli")
theirs=$(least "$work/times.eval")
echo "a node: muesli $(nanoseconds "$ours") ns, plain $(nanoseconds "$theirs") ns, ratio $(ratio "$ours" "$theirs")"
