#!/usr/bin/env bash
# Times `seq` on the square script beside plain programs, each pair in one run:
#     1,000,000 records of one number beside plain.rs and wide.rs
#     one record of 1,048,576 numbers, which is read whole and then refused, beside wide.rs
# Prints the least seconds of some rounds, their ratios and the peak memory of each. Needs rustc and GNU time.
set -eu
export LC_ALL=C
. "$(dirname "${BASH_SOURCE[0]}")/common.sh"
rounds=${1:-15}

script=$top/examples/square.muesli
compile plain
compile wide
awk 'BEGIN { srand(1); for (i = 0; i < 1000000; i++) printf "%d\n", int((rand() * 2 - 1) * 3037000499) }' >"$work/one"
head -n 1048576 <(cat "$work/one" "$work/one") | paste -sd ' ' >"$work/many"

# The first call builds the program where it has to.
"$top/bin/muesli" check "$script" >"$work/checked"

alike "$work/one" muesli plain wide
alike "$work/many" muesli wide
# The second input is refused, and nothing comes of it.
grep -qx 'status 1' "$work/muesli.err"
[ ! -s "$work/muesli.out" ]

compare 'one number in each of 1,000,000 records' "$work/one" muesli plain wide
compare 'one record of 1,048,576 numbers' "$work/many" muesli wide
