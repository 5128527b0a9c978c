#!/bin/sh
# Runs the rehearsal and the narration on each input below tests/rehearsed/, and compares what they print with the stored output, which
# tests/stories.py describes.
#
#     tests/rehearsed.sh [DIR]     DIR holds the two programs; without it, those that `rt ci` built, in crates/NAME/out
#
# It prints nothing where all agree. Each difference is a sentence that names the file, and the exit status is then 1.
set -eu
here=$(dirname "$0")
programs=${1-}
printed=$(mktemp)
trap 'rm -f "$printed"' EXIT
trap 'exit 1' HUP INT TERM
bad=0

fault() {
    echo "$1"
    bad=1
}

# Where a program stands.
built() { echo "${programs:-$here/../crates/$1/out}/$1"; }

# compare NAME PROGRAM ENDING: what the program prints for NAME.in, or its last lines where the ending says so.
compare() {
    stored=$here/rehearsed/$1.$3
    [ -f "$stored" ] || return 0
    compared=$((compared + 1))
    if ! "$(built "$2")" <"$here/rehearsed/$1.in" >"$printed"; then
        fault "$2 failed on tests/rehearsed/$1.in"
        return 0
    fi
    case $3 in
    *-end) tail -n "$(wc -l <"$stored")" "$printed" | cmp -s - "$stored" ;;
    *) cmp -s "$printed" "$stored" ;;
    esac || fault "$2 prints something else for tests/rehearsed/$1.in than tests/rehearsed/$1.$3"
}

for program in rehearsal narration; do
    [ -x "$(built "$program")" ] || fault "there is no program $(built "$program") to run"
done
[ "$bad" -eq 0 ] || exit 1

inputs=0
for input in "$here"/rehearsed/*.in; do
    [ -f "$input" ] || continue
    inputs=$((inputs + 1))
    name=$(basename "$input" .in)
    for program in rehearsal narration; do
        compared=0
        compare "$name" "$program" "$program"
        compare "$name" "$program" "$program-end"
        [ "$compared" -ne 0 ] || fault "tests/rehearsed/$name.in has no stored output of $program"
    done
done
[ "$inputs" -ne 0 ] || fault "there is no input below tests/rehearsed/"
exit "$bad"
