#!/usr/bin/env bash
# Times data programs, each beside a plain program in one run:
#     `seq` on the sum, the sums up to each number and a light map of one record of 1,000,000 numbers beside data.rs
#     `seq` on a permutation of it, and on steps of it as a matrix of 1,000 rows and columns, beside data.rs
#     a map of 101 nodes by the fabric whose members work side by side beside the one whose members take turns
# Prints the least seconds of some rounds and their ratios. Needs rustc, GNU time and `rt`.
set -eu
export LC_ALL=C
. "$(dirname "${BASH_SOURCE[0]}")/common.sh"
rounds=${1:-9}
threads=(1 2 4)

# Writes a script over the record r, whose result is s.
write_script() {
    cat >"$work/$1.muesli" <<SCRIPT
muesli 1;
fun up(x) = x + 1;
data program {
  r = array 3;
  s = $2;
  give s;
}
main = data program on 4;
SCRIPT
}

# Writes a script over the record as a matrix in a grid, whose result is s.
write_matrix_script() {
    cat >"$work/$1.muesli" <<SCRIPT
muesli 1;
fun up(x) = x + 1;
fun left(s) = -s;
data program {
  m = matrix 1000 1000 grid $3 at 0;
  s = $2 m;
  give s;
}
main = data program on 4;
SCRIPT
}

# Writes a script that puts the number at place i of the record to place i * K modulo 1,000,000.
write_permutation() {
    cat >"$work/$1.muesli" <<SCRIPT
muesli 1;
fun stride(k, i) = i * k % 1000000;
data program {
  r = array 3;
  s = permute stride($2) r;
  give s;
}
main = data program on 4;
SCRIPT
}

write_script sum 'fold sum r'
write_script scan 'scan sum r'
write_script map 'map up r'
write_matrix_script matrix-map 'map up' '4 4'
write_matrix_script transpose transpose '4 4'
write_matrix_script rotate-rows 'rotateRows left' '4 4'
write_matrix_script rotate-cols 'rotateCols left' '4 4'
write_permutation permute 7919
# Blocks that differ in size, and a function that puts two numbers to one place.
write_matrix_script ragged-rows 'rotateRows left' '4 3'
write_matrix_script ragged-cols 'rotateCols left' '3 4'
write_permutation repeated 7918
awk 'BEGIN { srand(1); for (i = 0; i < 1000000; i++) printf "%d\n", int((rand() * 2 - 1) * 3037000499) }' |
    paste -sd ' ' >"$work/many"
# The same record with a last number that is too great for a map.
sed 's/ [-0-9]*$/ 9223372036854775807/' "$work/many" >"$work/great"
# No numbers, sums that leave 64 bits at their end or on their way, and a line that is refused.
cat >"$work/few" <<'RECORDS'

1 -2 3
9223372036854775806 1
9223372036854775807 1 -1
9223372036854775807 1
RECORDS
printf '1 -2 3\n\n1 x\n' >"$work/refused"
compile data

# The first call builds the program where it has to.
"$top/bin/muesli" check "$work/sum.muesli" >"$work/checked"

# The program writes the same as data.rs over each input, and ends alike.
alike_over_all() {
    local input
    for input in many great few refused; do
        alike "$work/$input" muesli data
    done
}

time_seq() {
    local step
    for step in sum scan map; do
        script=$work/$step.muesli
        arguments=("$step")
        alike_over_all
        compare "$step of 1,000,000 numbers" "$work/many" muesli data
    done
}

# Fails where the run of a script over the record ends by another message than this, or otherwise than that of data.rs.
ends_by() {
    script=$work/$1.muesli
    alike "$work/many" muesli data
    grep -qxF "muesli: stage 1: $2" "$work/muesli.err"
}

time_moves() {
    local step
    for step in 'matrix-map' 'transpose' 'rotate-rows 4 4' 'rotate-cols 4 4' 'permute 7919'; do
        read -ra arguments <<<"$step"
        script=$work/${arguments[0]}.muesli
        alike_over_all
        compare "${arguments[0]} of 1,000,000 numbers" "$work/many" muesli data
    done
    arguments=(rotate-rows 4 3)
    ends_by ragged-rows 'blocks differ in size'
    arguments=(rotate-cols 3 4)
    ends_by ragged-cols 'blocks differ in size'
    arguments=(permute 7918)
    ends_by repeated 'not a permutation'
}

# Builds fabrics.rattle, as proved as the program, in a copy of the crates with what was built of them here.
build_fabrics() {
    local copy=$work/copy
    local crate=$copy/crates/fabrics
    mkdir "$copy"
    tar -C "$top" --exclude='crates/*/out/incremental' -cf - crates crates.txt | tar -C "$copy" -xf -
    mkdir -p "$crate/src"
    cp "$top/bench/fabrics.rattle" "$crate/src/main.rt"
    echo 'fabrics: msl_base msl_group msl_ops msl_lex msl_fun msl_fabric msl_array msl_muscle' >>"$copy/crates.txt"
    if ! (cd "$crate" && rt run -- moved) >"$work/fabrics.log" 2>&1 </dev/null; then
        tail -n 40 "$work/fabrics.log" >&2
        return 1
    fi
    cp "$crate/out/fabrics" "$work/fabrics"
}

# Runs the maps once, and appends the seconds to `seconds.FABRIC` and those of all processors to `used.FABRIC`.
run_maps() {
    local TIMEFORMAT='%3R %3U %3S' wall user system
    { time "$work/fabrics" "$1" >"$work/maps.$1"; } 2>"$work/time" || { cat "$work/time" >&2 && return 1; }
    cmp "$work/maps.moved" "$work/maps.$1"
    read -r wall user system <"$work/time"
    echo "$wall" >>"$work/seconds.$1"
    awk "BEGIN { print $user + $system }" >>"$work/used.$1"
}

time_fabrics() {
    local fabric n wall used moved_wall moved_used
    for _ in $(seq "$rounds"); do
        for fabric in moved "${threads[@]}"; do
            run_maps "$fabric"
        done
    done
    moved_wall=$(least "$work/seconds.moved")
    moved_used=$(least "$work/used.moved")
    echo "ten maps of 1,000,000 numbers, 101 nodes each: in turn $moved_wall s, $moved_used s of processors"
    for n in "${threads[@]}"; do
        wall=$(least "$work/seconds.$n")
        used=$(least "$work/used.$n")
        echo "    threads $n: $wall s, $used s of processors, $(ratio "$moved_wall" "$wall") times as fast, ratio of processors $(ratio "$used" "$moved_used")"
    done
}

time_seq
time_moves
build_fabrics
time_fabrics
