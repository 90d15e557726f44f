#!/usr/bin/env bash
# Runs a pipe of five stages, a farm and a filter among them, over streams of 10,000 and of 1,000,000 records, by `seq` and
# by `rounds`. Tests what is written beside awk, and that the longer stream takes no more than 256 KiB beyond what the
# shorter one does. Prints seconds and peak memory. Needs GNU time.
set -eu
export LC_ALL=C
. "$(dirname "${BASH_SOURCE[0]}")/common.sh"

script=$work/five.muesli
cat >"$script" <<'SCRIPT'
muesli 1;
fun add(x) = x + 1;
fun twice(x) = x * 2;
fun emits(s, x) = if s == 2 then 1 else 0;
fun gives(s, x, k) = x;
fun turn(s, x) = if s == 2 then 0 else s + 1;
fun held(s) = s;
fun rest(s, k) = s + k;
filter third { state 0; count emits; item gives; next turn; flush held; last rest; }
main = pipe { atomic add; farm 3 { atomic twice }; filter third; atomic add; atomic twice };
SCRIPT

"$top/bin/muesli" check "$script" >"$work/checked"

# The records of a stream of $1 records, and what the script makes of them.
records() {
    awk -v n="$1" 'BEGIN { for (i = 0; i < n; i++) print i % 1000 }' >"$work/records.$1"
    awk '{ x = ($1 + 1) * 2 } NR % 3 == 0 { print (x + 1) * 2 }
        END { s = NR % 3; for (k = 0; k < s; k++) print (s + k + 1) * 2 }' "$work/records.$1" >"$work/results.$1"
}

# Whether a run writes the results.
writes() {
    "$program" $1 "$script" <"$work/records.$2" | cmp - "$work/results.$2"
}

# The seconds and the peak memory in KiB of a run. The words of its command stand apart.
costs() {
    env time -q -f '%e %M' -o "$work/costs" "$program" $1 "$script" <"$work/records.$2" >/dev/null
    cat "$work/costs"
}

is_flat() {
    [ "$1" -le $(($2 + 256)) ]
}

for n in 10000 1000000; do
    records "$n"
done
for command in seq 'rounds -p 8'; do
    holds "$command, results of 1,000,000 records" writes "$command" 1000000
    read -r _ few <<<"$(costs "$command" 10000)"
    read -r seconds many <<<"$(costs "$command" 1000000)"
    echo "$command: 1,000,000 records in $seconds s, $many KiB; 10,000 in $few KiB"
    holds "$command, flat memory" is_flat "$many" "$few"
done
sum_up
