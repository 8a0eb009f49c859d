#!/bin/sh
# run.sh FOLDER..: lists the matches of each folder's pattern.txt and recipe.txt by the proved program, and prints the listing, then its values as text.
# The first run proves the program and all that it rests on, which takes long, and prints what rt says on the way; later runs use what is proved.
set -eu
here=$(cd "$(dirname "$0")" && pwd)
[ $# -ge 1 ] || { echo "usage: run.sh FOLDER.. (with pattern.txt and recipe.txt in it)" >&2; exit 2; }
program=$here/../crates/onestep/out/onestep
room=$(mktemp -d)
trap 'rm -rf "$room"' EXIT
trap 'exit 1' HUP INT TERM

echo "checking the program: what isn't proved yet is proved now, crate by crate; all of it takes long" >&2
: >"$room/log"
# rt run proves and builds the program, and runs it too: with no files there, so what it prints then is dropped.
{
    status=0
    (cd "$here/../crates/onestep" && rt run </dev/null) 2>&1 >/dev/null || status=$?
    echo "$status" >"$room/status"
} | while IFS= read -r line; do
    printf '%s\n' "$line" >>"$room/log"
    case $line in
    'rt: note'*) ;;
    'rt: '*) printf '%s\n' "$line" >&2 ;;
    esac
done
[ "$(cat "$room/status")" -eq 0 ] || { cat "$room/log" >&2; exit 1; }

several=$(($# > 1))
for folder in "$@"; do
    [ "$several" -eq 0 ] || echo "== $folder"
    [ -d "$folder" ] || folder=$here/$folder
    "$here/records.sh" "$folder/pattern.txt" >"$room/pattern.rec"
    "$here/records.sh" "$folder/recipe.txt" >"$room/recipe.rec"
    (cd "$room" && "$program") >"$room/printed"
    cat "$room/printed"
    awk -f "$here/terms.awk" "$here/constants.txt" "$room/printed"
done
