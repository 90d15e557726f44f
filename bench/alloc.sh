#!/usr/bin/env bash
# Runs the squares example with one allocation failing, the first, then the second and so on, until the run is done.
# Each run has to end as the clause `ran` allows at `Memory`: with status 4, its message, and the text of the first
# results, maybe of none. Prints a line for each run, and ends with status 0 only where all of them end so.
# The runs are of the unproved build, since `rt try` alone can make an allocation fail; each is built anew.
set -u
top=$(cd "$(dirname "${BASH_SOURCE[0]}")/.." && pwd) || exit 1
work=$(mktemp -d) || exit 1
trap 'rm -rf "$work"' EXIT
cd "$top/crates/muesli" || exit 1
most=${1:-100}

# Whether the output is whole lines from the front of what a whole run writes, maybe none.
is_front() {
    head -c "$(stat -c %s "$work/out")" stdout | cmp -s - "$work/out" && [ -z "$(tail -c 1 "$work/out")" ]
}

wrong=0
done=no
n=0
while [ "$done" = no ] && [ "$n" -lt "$most" ]; do
    n=$((n + 1))
    rt try --fail-alloc "$n" -- seq data/square.muesli <stdin >"$work/out" 2>"$work/err"
    # The status that `rt try` itself ends with may be one of its own.
    status=$(sed -n 's/^run=ended status=\([0-9]*\) .*/\1/p' "$work/err")
    message=$(grep -v -e '^allocations: ' -e '^interpreter: ' -e '^checked: ' -e '^run=' "$work/err")
    if [ "$status" = 4 ] && [ "$message" = 'muesli: out of memory' ] && is_front; then
        verdict='as allowed'
    elif [ "$status" = 0 ] && [ -z "$message" ] && cmp -s stdout "$work/out"; then
        verdict='done'
        done=yes
    else
        verdict='NOT ALLOWED'
        wrong=$((wrong + 1))
    fi
    echo "allocation $n: status ${status:-none}, $(stat -c %s "$work/out") bytes of output, ${message:-no message}: $verdict"
done
if [ "$done" = no ]; then
    echo "no run is done where one of the first $most allocations fails"
    exit 1
fi
echo "$((n - 1)) runs with a failed allocation, $wrong of them not as allowed"
[ "$wrong" = 0 ]
