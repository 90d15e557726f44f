#!/usr/bin/env bash
# Runs the squares example with an output that fails, with few results, which are written at the end alone, and with
# many. Each run has to end with status 3 and the message of the write fault.
# Prints a line for each run, and ends with status 0 only where all of them end so.
set -u
. "$(dirname "${BASH_SOURCE[0]}")/common.sh"
script=$top/examples/square.muesli
cp "$top/examples/square.records" "$work/few"
yes 3037000499 | head -n 3000000 >"$work/many"

squares() {
    "$top/bin/muesli" seq "$script" <"$work/$1" 2>"$work/err"
}

# A pipe that nobody reads from the start on.
closed_pipe() {
    local pipe status=0
    exec {pipe}> >(:)
    wait $!
    squares "$1" >&"$pipe" || status=$?
    exec {pipe}>&-
    return "$status"
}

# A pipe that nobody reads after two lines.
pipe_closed_later() {
    squares "$1" | head -n 2 >"$work/out"
    local status=${PIPESTATUS[0]}
    [ "$(wc -l <"$work/out")" = 2 ] && return "$status"
}

full_disk() {
    squares "$1" >/dev/full
}

# Nothing stands in the place of an output that is closed: a write to it fails.
closed_output() {
    squares "$1" >&-
}

ends_with_write_fault() {
    local status=0 message
    "$@" || status=$?
    message=$(cat "$work/err")
    [ "$status" = 3 ] && [ "$message" = 'muesli: write fault' ] && return
    echo "status $status, ${message:-no message}"
    return 1
}

# The first call builds the program where it has to.
squares few >"$work/out" || exit 1
holds 'a closed pipe, few results' ends_with_write_fault closed_pipe few
holds 'a closed pipe, many results' ends_with_write_fault closed_pipe many
holds 'a pipe that is closed after two lines, many results' ends_with_write_fault pipe_closed_later many
holds 'a full disk, few results' ends_with_write_fault full_disk few
holds 'a full disk, many results' ends_with_write_fault full_disk many
holds 'a closed output, few results' ends_with_write_fault closed_output few
holds 'a closed output, many results' ends_with_write_fault closed_output many
sum_up
