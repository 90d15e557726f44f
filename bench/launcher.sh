#!/usr/bin/env bash
# Tries the launcher, bin/muesli, in a copy of the repository: when it builds and when it doesn't, what it does while
# another call builds, and what it does where a build fails.
# Prints a line for each case, and ends with status 0 only where all hold. Builds begin with what `rt` kept on this
# machine; where it kept nothing, the first takes as long as a first build.
set -u
. "$(dirname "${BASH_SOURCE[0]}")/common.sh"
copy=$work/copy
# A source that nothing stands on is built anew the soonest.
main=crates/muesli/src/main.rt

mkdir "$copy" || exit 1
tar -C "$top" --anchored --no-wildcards-match-slash --exclude='crates/*/out' -cf - bin crates crates.txt HANDLES examples |
    tar -C "$copy" -xf - || exit 1

# One call of the launcher, under a name.
launch() {
    "$copy/bin/muesli" seq "$copy/examples/square.muesli" \
        <"$copy/examples/square.records" >"$work/$1.out" 2>"$work/$1.err"
    echo $? >"$work/$1.status"
}

# Whether a call ended with this status, and wrote what is in this file.
ended() {
    [ "$(cat "$work/$1.status")" = "$2" ] && cmp -s "$work/$1.out" "$3"
}

# Whether a call ran the program.
ran() {
    ended "$1" 0 "$copy/examples/square.results"
}

# Whether a call said these words on the error output.
said() {
    grep -qsF "$2" "$work/$1.err"
}

built() {
    ran "$1" && said "$1" 'building the proved program'
}

# Whether the first of two calls built the program, and the second waited for it alone.
built_beside() {
    built "$1" && said "$2" 'waiting for it' && ! said "$2" 'building the proved program'
}

ran_at_once() {
    ran "$1" && [ ! -s "$work/$1.err" ]
}

# Whether a call that took so many seconds said every half minute what it was doing.
told_progress() {
    [ "$(grep -c '^muesli: after ' "$work/$1.err")" -ge $((($2 - 10) / 30)) ]
}

# The sum that the launcher takes.
sum() (
    . "$copy/bin/muesli"
    sum_of_sources
)

# Whether what a command does to the copy changes the sum, or doesn't, and whether mending it brings the old sum again.
sum_after() {
    local wanted=$1 path=$2 before after mended
    shift 2
    before=$(sum)
    (cd "$copy" && "$@")
    after=$(sum)
    rm -rf "${copy:?}/$path"
    [ ! -e "$top/$path" ] || cp -R "$top/$path" "$copy/$path"
    mended=$(sum)
    [ "$mended" = "$before" ] || return
    if [ "$wanted" = changes ]; then [ "$after" != "$before" ]; else [ "$after" = "$before" ]; fi
}

add_byte() {
    printf '\n' >>"$1"
}

new_file() {
    mkdir -p "$1" && echo '// New.' >"$1/new.rt"
}

# Whether another kit changes the sum.
kit_changes() (
    mkdir -p "$work/kit/bin" && echo 'another kit' >"$work/kit/KIT-ID"
    printf '#!/bin/sh\n' >"$work/kit/bin/rt" && chmod +x "$work/kit/bin/rt"
    [ "$(PATH=$work/kit/bin:$PATH sum)" != "$(sum)" ]
)

try_sums() {
    holds 'a byte in a crate at the bottom counts' sum_after changes crates/msl_base/src add_byte crates/msl_base/src/lib.rt
    holds 'a file in a folder named data below src counts' sum_after changes crates/muesli/src/data new_file crates/muesli/src/data
    holds 'a file in a folder named out below proofs counts' sum_after changes crates/muesli/proofs new_file crates/muesli/proofs/a/out
    holds 'a deleted file counts' sum_after changes crates/msl_base/src rm crates/msl_base/src/lib.rt
    holds 'a moved file counts' sum_after changes crates/msl_base/src mv crates/msl_base/src/lib.rt crates/msl_base/src/moved.rt
    holds 'crates.txt counts' sum_after changes crates.txt add_byte crates.txt
    holds 'HANDLES counts' sum_after changes HANDLES add_byte HANDLES
    holds 'the kit counts' kit_changes
    holds 'a crate that the program does not stand on does not count' sum_after stays crates/msl_rows/src add_byte crates/msl_rows/src/lib.rt
    holds 'a wrong body does not count' sum_after stays crates/msl_base/must-fail new_file crates/msl_base/must-fail
    holds 'what rt makes does not count' sum_after stays crates/muesli/out/made new_file crates/muesli/out/made
}

# Edits a source, each time otherwise.
edit() {
    echo "// $EPOCHREALTIME" >>"$copy/$main"
}

try_builds() {
    local began=$SECONDS
    launch first
    holds 'the first call builds, and runs the program' built first
    holds 'a build says what it is doing' told_progress first $((SECONDS - began))
    launch again
    holds 'the next call runs it at once' ran_at_once again
    touch "$copy/$main"
    launch touched
    holds 'so does a call after a file was touched' ran_at_once touched
}

try_two_at_once() {
    edit
    launch one &
    launch two
    wait $!
    holds 'of two calls at once after an edit both run the program' eval 'ran one && ran two'
    holds 'and one builds it while the other waits' eval 'built_beside one two || built_beside two one'
}

try_edit_during_build() {
    edit
    launch during &
    while kill -0 $! 2>/dev/null && ! said during 'building the proved program'; do sleep 0.1; done
    edit
    wait $!
    holds 'a build goes on after an edit' built during
    launch after
    holds 'the next call builds the edit' built after
    launch behind
    holds 'and the next runs at once' ran_at_once behind
}

# A program of what stands in the copy is there.
try_failing_build() {
    local before
    before=$(sha256sum "$copy/out/muesli")
    cp "$copy/$main" "$work/main.rt"
    # The index is none of the array.
    sed -i 's/^fn main(.*{$/&\n    let at: usize = 1;\n    let _wrong = [0_u8; 1][at];/' "$copy/$main"
    launch broken
    holds 'a build that fails ends with status 70, and runs nothing' ended broken 70 /dev/null
    holds 'and says so, and why' eval "said broken 'the program was not built' && said broken 'only a proved crate is built'"
    holds 'and leaves the old program as it was' [ "$(sha256sum "$copy/out/muesli")" = "$before" ]
    launch still
    holds 'the next call tries again, and does not run the old program' ended still 70 /dev/null
    cp "$work/main.rt" "$copy/$main"
    launch mended
    holds 'what was mended runs again' ran mended
}

# Whether the program's own status and message come through.
hands_through() {
    local status=0
    "$copy/bin/muesli" >"$work/words.out" 2>"$work/words.err" || status=$?
    [ "$status" = 2 ] && [ ! -s "$work/words.out" ] && said words 'muesli: usage: '
}

try_builds
holds 'status and message are those of the program' hands_through
try_sums
try_two_at_once
try_edit_during_build
try_failing_build
sum_up
