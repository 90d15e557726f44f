#!/usr/bin/env bash
# Runs the examples by the proved program. Each script is checked: its canonical text, checked again, has to come out the
# same. Each script is run over its records by each command, and has to write its results; those of a farm may come in any
# order by `rounds`. The tests of the examples repeat their texts, and have to have them as they stand.
# Prints a line for each run, and ends with status 0 only where all are as they have to be.
set -u
. "$(dirname "${BASH_SOURCE[0]}")/common.sh"
# The commands that run a script over records, and the tests that repeat the examples.
commands=(seq 'rounds -p 64')
tests=$(cat "$top"/crates/msl_rows/src/examples*.rt)
# The message of each example whose run ends by a fault, with status 1. Any other ends with status 0 and no message.
declare -A faults=([split]='muesli: stage 1: division by zero')
cd "$top/examples" || exit 1

# Runs the program with these words, and says whether its status and message are these.
ends() {
    local status=$1 message=$2 found=0
    shift 2
    "$top/bin/muesli" "$@" >"$work/out" 2>"$work/err" || found=$?
    [ "$found" = "$status" ] && [ "$(cat "$work/err")" = "$message" ]
}

reads_back() {
    ends 0 '' check "$1" && [ -s "$work/out" ] && mv "$work/out" "$work/text.muesli" &&
        ends 0 '' check "$work/text.muesli" && cmp -s "$work/text.muesli" "$work/out"
}

# Puts the lines of a script's results into one order, where a command leaves their order open.
in_order() {
    if [ "$1" != seq ] && grep -q '^main .*\<farm\>' "$2.muesli"; then sort; else cat; fi
}

gives_results() {
    local message=${faults[$2]-} words
    read -ra words <<<"$1"
    ends $((${#message} > 0)) "$message" "${words[@]}" "$2.muesli" <"$2.records" &&
        cmp -s <(in_order "$1" "$2" <"$2.results") <(in_order "$1" "$2" <"$work/out")
}

# Whether a test has the script as it stands, the records and the results.
is_tested() {
    local records results
    records=$(sed 's/$/\\n/' "$1.records" | tr -d '\n')
    results=$(sed 's/$/\\n/' "$1.results" | tr -d '\n')
    [[ $tests == *"\"$(cat "$1.muesli")"$'\n"'* && $tests == *"b\"$records\""* && $tests == *"b\"$results\""* ]]
}

# The first call builds the program where it has to.
"$top/bin/muesli" check square.muesli >"$work/out" || exit 1
for script in *.muesli; do
    example=${script%.muesli}
    holds "check $script" reads_back "$script"
    for command in "${commands[@]}"; do
        holds "$command $script" gives_results "$command" "$example"
    done
    holds "the test of $script" is_tested "$example"
done
sum_up
