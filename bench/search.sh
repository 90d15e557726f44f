#!/usr/bin/env bash
# Times a division and two searches beside search.rs, plain recursions over the same trees with the same checks, in one run:
# the sum of a range of 500,000 numbers by halves (1,000,000 problems), the best leaf of a complete tree of 1,048,575 nodes
# by `seq`, which drops none, and knapsacks of 30 things with 500 rooms by `rounds`, whose pool drops nodes, with one member.
# Prints the least seconds of some rounds, and their ratio. Needs rustc.
set -eu
export LC_ALL=C
. "$(dirname "${BASH_SOURCE[0]}")/common.sh"
rounds=${1:-9}

compile search

# Times a script beside the plain program: what it is, the command, the records, and at most so many times as long.
measure() {
    local what=$1 most=$4 ours theirs
    script=$work/$what.muesli
    cat >"$script"
    echo "$3" >"$work/records"
    arguments=("$what")
    run=$2
    alike "$work/records" search muesli
    run_in_turn "$work/records" muesli search
    ours=$(least "$work/times.muesli")
    theirs=$(least "$work/times.search")
    echo "$what by $run: muesli $ours s, plain $theirs s, ratio $(ratio "$ours" "$theirs"), at most $most is wanted"
}

# As in common.sh, by the command that is measured.
command_of() {
    if [ "$1" = muesli ]; then
        command=("$program" "$run" "$script")
    else
        command=("$work/$1" "${arguments[@]}")
    fi
}

# The first call builds the program where it has to.
"$top/bin/muesli" check "$top/examples/range.muesli" >"$work/checked"

measure range seq '0 500000' 1.3 <<'SCRIPT'
muesli 1;
fun tiny(a, b) = b - a <= 1;
fun one(a, b) = if b - a == 1 then a else 0;
fun half(a, b, j) = [if j == 0 then a else (a + b) / 2, if j == 0 then (a + b) / 2 else b];
fun add(x, y) = x + y;
divcon range { parts 2; cutoff 8; simple tiny; solve one; divide half; combine add; }
main = divcon range on 2;
SCRIPT

measure leaves seq '0 0' 1.3 <<'SCRIPT'
muesli 1;
fun low(d, x) = 0;
fun deep(d, x) = d >= 19;
fun worth(d, x) = (x * 7919 + 13) % 1000003;
fun two(d, x) = 2;
fun step(d, x, k) = [d + 1, 2 * x + k];
bnb leaves { bound low; solved deep; value worth; count two; branch step; }
main = bnb leaves on 1;
SCRIPT

pack() {
    cat <<'SCRIPT'
muesli 1;
fun weight(i) = 30 + i * 37 % 41;
fun worth(i) = weight(i) * (90 - 2 * i) / 10;
fun low(i, r, out, rest) = if i == 30 then out else out + max(0, rest - r * worth(i) / weight(i));
fun whole(i, r, out, rest) = i == 30;
fun left(i, r, out, rest) = out;
fun kids(i, r, out, rest) = if r >= weight(i) then 2 else 1;
fun without(i, r, k) = if k == 1 then 1 else if r >= weight(i) then 0 else 1;
fun step(i, r, out, rest, k) = [i + 1, if without(i, r, k) then r else r - weight(i), if without(i, r, k) then out + worth(i) else out, rest - worth(i)];
bnb pack { bound low; solved whole; value left; count kids; branch step; }
main = bnb pack on 1;
SCRIPT
}

# The value of all things.
all=$(awk 'BEGIN { for (i = 0; i < 30; i++) { w = 30 + i * 37 % 41; s += int(w * (90 - 2 * i) / 10) } print s }')
pack | measure pack rounds "$(for room in $(seq 301 2 1299); do echo "0 $room 0 $all"; done)" 1.5
