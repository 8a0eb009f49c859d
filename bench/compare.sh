#!/bin/sh
# Sets two builds of the static library against each other: compiles src/compare.rs with both of them and runs it.
#
#   bench/compare.sh BEFORE.a AFTER.a [a family, as b, or another beginning of names of cases, as b0]
set -eu
here=$(cd "$(dirname "$0")" && pwd)
[ $# -ge 2 ] || { echo "usage: bench/compare.sh BEFORE.a AFTER.a [family]" >&2; exit 2; }
before=$1 after=$2
shift 2

build=$(mktemp -d)
trap 'rm -rf "$build"' EXIT
trap 'exit 1' HUP INT TERM

# one_function LIBRARY NAME: makes $build/NAME.o of the library, with onestep_list under that name and all other names hidden. Its code
# begins at a page of its own, so that code that both builds have alike stands alike.
echo 'SECTIONS { .text : ALIGN(4096) { *(.text .text.*) } }' >"$build/script"
one_function() {
    [ -f "$1" ] || { echo "no static library at $1" >&2; exit 2; }
    ld -r -T "$build/script" --require-defined onestep_list -o "$build/$2.o" "$1"
    objcopy --redefine-sym "onestep_list=$2" --keep-global-symbol "$2" "$build/$2.o"
    names=$(nm --extern-only --defined-only --format=posix "$build/$2.o" | cut -d ' ' -f 1)
    [ "$names" = "$2" ] || { echo "$1 gives '$names', and $2 alone was to be" >&2; exit 2; }
}
one_function "$before" onestep_list_before
one_function "$after" onestep_list

rustc --edition 2021 -O -D warnings -o "$build/compare" "$here/src/compare.rs" \
    -C link-arg="$build/onestep_list_before.o" -C link-arg="$build/onestep_list.o"
echo "before: $before, checksum and bytes $(cksum <"$before")"
echo "after: $after, checksum and bytes $(cksum <"$after")"
grep -m 1 'model name' /proc/cpuinfo || true
echo "cores and load: $(nproc), $(cut -d ' ' -f 1-3 /proc/loadavg); $(rustc --version)"
"$build/compare" "$here/cases" "$@"
