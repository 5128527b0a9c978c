#!/bin/sh
# Rules that ./test sees to without the prover.
#
#     tests/contracts.sh sources DIR        the sources below DIR/crates keep the rules below
#     tests/contracts.sh passed DIR FILE    the last line of FILE, what `rt ci` printed, counts at least as many as DIR/tests/passed says, and its line
#                                           `rt: ok` no bad must-fail edit, which is one that can't be tried
#
# The rules for sources, in tests/contracts/:
#     words.awk        the text is what it seems: known letters and signs, no comment but at a line's end, no string over lines
#     names.awk        no file gives a name of the library or of the prelude another meaning; no axiom or like escape is used
#     claims.awk       no equation of a thing with itself; no definition that is `Unit` or leaves out what it is given
#     functions.awk    a public library function has no `requires`, and an `ensures` that names all that it takes, leaves and gives
#     exports.awk      hosts/c/paxos_commit.h declares the exported functions, each with its parameters, and no other
# Besides, all below crates/ and tests/ is plain files, and crates and must-fail edits are at least as many as DIR/tests/passed says.
#
# Each fault is a line that says what and where. Exit status 1 where there is one.
set -eu
export LC_ALL=C
rules=$(cd "$(dirname "$0")" && pwd)/contracts

# What stands below folders, but for what the toolchain makes, crates/NAME/out.
below() {
    at=$1
    shift
    # shellcheck disable=SC2086
    find $at -regex 'crates/[^/]*/out' -prune -o "$@" -print
}

# What stands below crates/ and tests/ and is no folder and no plain file with a plain name, and crates that are library and program at once.
not_plain() {
    below 'crates crates.txt tests' ! -type d ! -type f | sed 's/$/: is no plain file/'
    below 'crates tests' -true | { grep -v '^[A-Za-z0-9_./+-]*$' || :; } | sed 's/$/: is no plain name/'
    for crate in crates/*/; do
        if [ -e "${crate}src/lib.rt" ] && [ -e "${crate}src/main.rt" ]; then echo "$crate: has src/lib.rt and src/main.rt"; fi
    done
}

sources() {
    cd "$1"
    said=$(not_plain)
    if [ -n "$said" ]; then
        printf '%s\n' "$said"
        return 1
    fi
    bad=0
    programs=$(for crate in crates/*/; do [ ! -f "${crate}src/main.rt" ] || basename "$crate"; done | tr '\n' ' ')
    # shellcheck disable=SC2046
    awk -v programs="$programs" -v header=hosts/c/paxos_commit.h \
        -f "$rules/words.awk" -f "$rules/names.awk" -f "$rules/claims.awk" -f "$rules/functions.awk" -f "$rules/exports.awk" \
        $(below crates '(' -name '*.rt' -o -name '*.antt' ')' | sort) </dev/null || bad=1
    crates=$(sed 's/#.*//' crates.txt | grep -c :)
    edits=$(below crates -path '*/must-fail/*.edit' | wc -l)
    stated=$(cat tests/passed)
    if [ $((crates + edits)) -lt "$stated" ]; then
        echo "too few: crates.txt lists $crates crates and there are $((edits)) must-fail edits, and tests/passed says $stated"
        bad=1
    fi
    return "$bad"
}

passed() {
    stated=$(cat "$1/tests/passed")
    line=$(tail -n 1 "$2")
    number=${line%% passed, 0 failed*}
    case $line in
    *'not the gate'*) number=0 ;;
    *' passed, 0 failed' | *' passed, 0 failed '*) ;;
    *) number=0 ;;
    esac
    case $number in
    '' | *[!0-9]*) number=0 ;;
    esac
    if [ "$number" -lt "$stated" ]; then
        echo "too few: the last line is \`$line\`, and tests/passed says $stated"
        return 1
    fi
    told=$(grep '^rt: ok' "$2") || {
        echo "there is no line \`rt: ok\`"
        return 1
    }
    case $(printf '%s\n' "$told" | grep -E ', 0*[1-9][0-9]* bad') in
    ?*)
        echo "a must-fail edit can't be tried: $told"
        return 1
        ;;
    esac
}

case ${1-} in
sources) sources "$2" ;;
passed) passed "$2" "$3" ;;
*) sed -n '2,/^set/s/^# \{0,1\}//p' "$0" >&2; exit 2 ;;
esac
