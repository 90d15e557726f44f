# What the scripts of this folder have in common; they source it.
top=$(cd "$(dirname "${BASH_SOURCE[0]}")/.." && pwd) || exit 1
work=$(mktemp -d) || exit 1
trap 'rm -rf "$work"' EXIT
# The program, once the launcher has built it.
program=$top/out/muesli

cases=0
wrong=0
# Prints whether a case is as it has to be, which is what a command says.
holds() {
    local case=$1 verdict=ok
    shift
    "$@" || verdict=WRONG
    [ "$verdict" = ok ] || wrong=$((wrong + 1))
    cases=$((cases + 1))
    echo "$case: $verdict"
}

# Prints how many cases there were, and says whether all were as they have to be.
sum_up() {
    echo "$cases cases, $wrong of them wrong"
    [ "$wrong" = 0 ]
}

# Compiles a plain program of this folder.
compile() {
    rustc --edition 2021 -O -o "$work/$1" "$top/bench/$1.rs"
}

# The functions below run programs by their names; that of the program itself is `muesli`, and runs `script`. A plain
# one gets the arguments that stand here.
arguments=()

# Puts the command of a program into `command`.
command_of() {
    if [ "$1" = muesli ]; then
        command=("$program" seq "$script")
    else
        command=("$work/$1" "${arguments[@]}")
    fi
}

# Runs programs over an input, and fails where one doesn't write the same as the first, with the same message and status.
alike() {
    local input=$1 first=$2 name status
    shift
    for name in "$@"; do
        command_of "$name"
        status=0
        "${command[@]}" <"$input" >"$work/$name.out" 2>"$work/$name.err" || status=$?
        echo "status $status" >>"$work/$name.err"
        cmp "$work/$first.out" "$work/$name.out" || return
        cmp "$work/$first.err" "$work/$name.err" || return
    done
}

# The seconds that one run takes.
seconds() {
    local began ended
    command_of "$1"
    began=$EPOCHREALTIME
    "${command[@]}" <"$2" >/dev/null 2>&1 || true
    ended=$EPOCHREALTIME
    awk "BEGIN { printf \"%.4f\n\", $ended - $began }"
}

# The peak memory of one run in KiB.
memory() {
    command_of "$1"
    /usr/bin/env time -q -f %M -o "$work/memory" "${command[@]}" <"$2" >/dev/null 2>&1 || true
    cat "$work/memory"
}

# The least of the numbers in a file.
least() {
    sort -n "$1" | head -n 1
}

ratio() {
    awk "BEGIN { printf \"%.2f\", $1 / $2 }"
}

# Runs the programs in turn, `rounds` times, so that all meet the same machine. The times of each stand in `times.NAME`.
run_in_turn() {
    local input=$1 name
    shift
    rm -f "$work"/times.*
    for _ in $(seq "$rounds"); do
        for name in "$@"; do
            seconds "$name" "$input" >>"$work/times.$name"
        done
    done
}

# Runs the programs in turn, and prints what each took.
compare() {
    local what=$1 input=$2 ours theirs name
    shift 2
    run_in_turn "$input" "$@"
    ours=$(least "$work/times.muesli")
    echo "$what: muesli $ours s, $(memory muesli "$input") KiB"
    shift
    for name in "$@"; do
        theirs=$(least "$work/times.$name")
        echo "    beside $name: $theirs s, $(memory "$name" "$input") KiB, ratio $(ratio "$ours" "$theirs")"
    done
}
