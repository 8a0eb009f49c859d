#!/bin/sh
# Measures the stack that calls of the library take: every case of the benchmark that ends within two seconds, the deepest sweep, the deepest swept forms
# that a rewrite sweeps again, and the deepest wholes that a book sweeps.
#
#   tests/stack.sh [path of the static library]
#
# The library is crates/exports/out/libexports.a unless given. A call that crashes or gives a wrong answer ends the run with status 1.
set -eu
here=$(cd "$(dirname "$0")" && pwd)
library=${1:-$here/../crates/exports/out/libexports.a}
[ -f "$library" ] || { echo "no static library at $library: 'cd crates/exports && rt lib' builds it" >&2; exit 2; }

build=$(mktemp -d)
trap 'rm -rf "$build"' EXIT
trap 'exit 1' HUP INT TERM
cc -O2 -Wall -Wextra -Werror "$here/stack.c" "$library" -pthread -o "$build/stack"

# measure NAME EXPECTED WORDS..: makes the call that WORDS say to stack.c; prints the bytes of stack, the name and the answer, which has to be EXPECTED.
measure() {
    name=$1 expected=$2 status=0
    shift 2
    "$build/stack" "$@" >"$build/call" || status=$?
    case $status in
    0) ;;
    2) echo "$name: the call couldn't be made" >&2 && exit 1 ;;
    3) echo "none  $name, no answer in two seconds" && return ;;
    *) echo "$name: the call crashed, status $status" >&2 && exit 1 ;;
    esac
    read -r bytes answer <"$build/call"
    [ "$answer" = "$expected" ] || { echo "$name: answered '$answer' instead of '$expected'" >&2; exit 1; }
    echo "$bytes  $name, $answer"
}

cases=$here/../bench/cases
tail -n +2 "$cases/manifest.tsv" | while IFS=$(printf '\t') read -r name _ _ _ expected; do
    measure "$name" "$expected" list "$cases/$name.pattern.rec" "$cases/$name.recipe.rec"
done >"$build/all"
sort -n "$build/all" | tail -3
count() { grep -c "$1" "$build/all" || true; }
echo "cases: $(count .), refused for want of room: $(count ', refused'), without an answer: $(count ', no answer')"
measure 'sweep of 31 nested abstractions' 'records 32' sweep 31

# copies N WORDS: the words, N times.
copies() {
    i=0
    while [ "$i" -lt "$1" ]; do printf '%s ' "$2" && i=$((i + 1)); done
}
# term NAME TEXT: a file of records.
term() {
    printf '%s\n' "$2" >"$build/text"
    "$here/../examples/records.sh" "$build/text" >"$build/$1"
}
# sweep_again NAME N BEFORE LOCAL BEHIND: a rewrite whose first swept form has 256 records, and in the midst of them a redex, so that all are swept again.
# Each of the two values puts its argument, LOCAL, between N copies of BEFORE and of BEHIND.
sweep_again() {
    term right '@ p0 @ p1 \ k2'
    term value_0 "\\ $(copies "$2" "$3") $4 $(copies "$2" "$5")"
    term value_1 "\\ $(copies "$2" "$3") @ $4 k1 $(copies "$2" "$5")"
    measure "rewrite that sweeps $((2 * $2)) nested $1 again" 'records 253' rewrite "$build/right" "$build/value_0" "$build/value_1"
}
{
    sweep_again abstractions 126 '\' '#126' ''
    sweep_again heads 63 '@' '#0' 'k1'
    sweep_again arguments 63 '@ k1' '#0' ''
    sweep_again 'abstractions and arguments' 42 '\ @ k1' '#42' ''
} >"$build/again"
sort -n "$build/again" | tail -1

# The case that takes the most to list, as a pair of a book.
name=$(grep ', matches [1-9]' "$build/all" | sort -n | tail -1 | sed 's/^[0-9]*  \(.*\),.*/\1/')
term right k1
measure "book that lists $name" 'records 1' book "$cases/$name.pattern.rec" "$build/right" "$cases/$name.recipe.rec"

# sweep_whole NAME N BEFORE LOCAL BEHIND: a book that puts a form of 254 records at a head of a recipe of 96, 4N deep, so that the whole has a redex and
# 328 records. The value puts its argument, LOCAL, between N copies of BEFORE and of BEHIND, and the form has it 14 times. What the sweep gives is too long.
sweep_whole() {
    term left '@ k5 p0'
    term right "\\ $(copies 14 '@ p0') k1"
    term recipe "$(copies $((4 * $2)) "$3") @ @ k5 \\ $(copies "$2" "$3") $4 $(copies "$2" "$5") k1 $(copies $((4 * $2)) "$5")"
    measure "book that sweeps $((18 * $2)) nested $1" 'refused 12' book "$build/left" "$build/right" "$build/recipe"
}
{
    sweep_whole abstractions 18 '\' '#18' ''
    sweep_whole heads 9 '@' '#0' 'k1'
    sweep_whole arguments 9 '@ k1' '#0' ''
    sweep_whole 'abstractions and arguments' 6 '\ @ k1' '#6' ''
} >"$build/whole"
sort -n "$build/whole" | tail -1

# The longest whole: a form of 256 records in the place of one.
term left k5
term right '\ \ \ @ @ \ \ @ #1 @ #1 @ #1 @ #1 @ #1 @ #1 #0 \ @ @ k1 #0 #0 k1'
term recipe "$(copies 93 '\') @ k5 k1"
measure 'book that sweeps a whole of 351 records' 'refused 12' book "$build/left" "$build/right" "$build/recipe"
