#!/bin/sh
# Runs the programs of examples/link over the static library, and compares it with the independent implementation in src/. Where the program is built, the
# examples are listed by it too.
#
#   tests/run.sh [path of the static library] [number of calls] [other options of src/main.rs, such as seed=5]
#
# The library is crates/exports/out/libexports.a unless given. A difference ends the run with status 1 and prints the call.
#
# The shelf is set against a plain map: as many calls as of the other operations, in walks from a new shelf, each handed what the one before left, and then
# all buoys read; one call for five of these is made on tables of any bytes, where nothing but safety is compared.
#
# Calls of the old form, in which constants have 16 bits, have to be answered as old_form.txt says. With the library as it was before constants had 24 bits
# that file was made by
#
#   tests/run.sh LIBRARY 200000 old_form=tests/old_form.txt
set -eu
here=$(cd "$(dirname "$0")" && pwd)
library=${1:-$here/../crates/exports/out/libexports.a}
calls=${2:-200000}
[ $# -ge 2 ] && shift 2 || shift $#
[ -f "$library" ] || { echo "no static library at $library: 'cd crates/exports && rt lib' builds it" >&2; exit 2; }
library=$(cd "$(dirname "$library")" && pwd)/$(basename "$library")

if [ -f "$here/../crates/onestep/out/onestep" ]; then
    "$here/../examples/test.sh"
else
    echo "examples: not listed, for there is no crates/onestep/out/onestep; 'cd crates/onestep && rt run' builds it"
fi
"$here/../examples/link/run.sh" "$library"

build=$(mktemp -d)
trap 'rm -rf "$build"' EXIT
trap 'exit 1' HUP INT TERM
rustc --edition 2021 -O -o "$build/compare" "$here/src/main.rs" -C link-arg="$library"

# In the foreground, so that Ctrl-C reaches what is timed.
status=0
timeout --foreground 600 "$build/compare" calls="$calls" "$@" || status=$?
if [ "$status" -ge 124 ]; then
    # The library crashed or did not come back: make the calls again, keeping the last one.
    echo "DIFFERENCE: ended with status $status; the last call:"
    timeout --foreground 900 "$build/compare" calls="$calls" trace="$build/call" "$@" >/dev/null 2>&1 || true
    if [ -f "$build/call" ]; then cat "$build/call"; else echo "one of the fixed calls (src/cases.rs, src/*/limits.rs, src/limits.rs, old_form.txt)"; fi
fi
exit "$status"
