#!/usr/bin/env bash
# Runs each command that docs/tutorial.md shows, and compares what it writes, errors too, with what stands below it there.
# The lines of `rounds` may come in any order, since a farm leaves that open.
# Prints a line for each command, and ends with status 0 only where all are as shown.
set -u
. "$(dirname "${BASH_SOURCE[0]}")/common.sh"
cd "$top" || exit 1

# Puts the lines that a command may write in any order into one order.
in_order() {
    case $1 in
        *' rounds '*) sort ;;
        *) cat ;;
    esac
}

# Whether a command writes this; empty lines at the end don't count.
writes() {
    local shown
    shown=$(printf %s "$2")
    [ "$(bash -c "$1" 2>&1 </dev/null | in_order "$1")" = "$(in_order "$1" <<<"$shown")" ]
}

# Tries the command that was read, with what stands below it.
end_command() {
    [ -z "$typed" ] || holds "$typed" writes "$typed" "$shown"
    typed=
    shown=
}

# The first call builds the program where it has to.
bin/muesli check examples/square.muesli >"$work/out" || exit 1
typed=
shown=
while IFS= read -r line; do
    case $line in
        '    $ '*)
            end_command
            typed=${line#'    $ '}
            ;;
        '    '*) shown+=${line#'    '}$'\n' ;;
        '') shown+=$'\n' ;;
        *) end_command ;;
    esac
done <docs/tutorial.md
end_command
sum_up
