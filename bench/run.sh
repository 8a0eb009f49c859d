#!/bin/sh
# Compiles the benchmark with the static library and runs it.
#
#   bench/run.sh [path of the static library] [options of src/main.rs: --limit MILLISECONDS, --hard, --show COUNT]
#
# The library is crates/exports/out/libexports.a unless given.
set -eu
here=$(cd "$(dirname "$0")" && pwd)
library=$here/../crates/exports/out/libexports.a
case ${1:---} in
--*) ;;
*) library=$1 && shift ;;
esac
[ -f "$library" ] || { echo "no static library at $library: 'cd crates/exports && rt lib' builds it" >&2; exit 2; }
library=$(cd "$(dirname "$library")" && pwd)/$(basename "$library")

build=$(mktemp -d)
trap 'rm -rf "$build"' EXIT
trap 'exit 1' HUP INT TERM
rustc --edition 2021 -O -D warnings -o "$build/bench" "$here/src/main.rs" -C link-arg="$library"
echo "library: $library, checksum and bytes $(cksum <"$library")"
grep -m 1 'model name' /proc/cpuinfo || true
echo "cores and load: $(nproc), $(cut -d ' ' -f 1-3 /proc/loadavg); $(rustc --version)"
"$build/bench" "$here/cases" "$@"
