#!/usr/bin/env bash
# Runs the demonstration of 100,000 records. Tests its line beside awk, and that it takes at most 64 MiB. Prints seconds and
# peak memory. Needs GNU time.
set -eu
export LC_ALL=C
. "$(dirname "${BASH_SOURCE[0]}")/common.sh"

"$top/bin/muesli" demo 0 >"$work/out"

# The sum up to each of a + b, a * b and a - b, over all records.
awk -v n=100000 'BEGIN {
    for (k = 0; k < n; k++) { a = k % 1000; b = 7 * k % 1000; sum += 3 * (a + b) + 2 * a * b + (a - b) }
    printf "demo: %d records in, %d records out, %d numbers, sum %.0f\n", n, n, 3 * n, sum
}' >"$work/line"

env time -q -f '%e %M' -o "$work/costs" "$program" demo 100000 >"$work/out"
read -r seconds peak <"$work/costs"
echo "demo: 100,000 records in $seconds s, $peak KiB"
holds 'its line' cmp "$work/line" "$work/out"
holds 'at most 64 MiB' [ "$peak" -le 65536 ]
sum_up
