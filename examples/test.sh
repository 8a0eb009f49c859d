#!/bin/sh
# test.sh: runs run.sh on all examples, and compares what it prints of each with the file `printed` in its folder. Status 1 if something differs.
set -eu
here=$(cd "$(dirname "$0")" && pwd)
room=$(mktemp -d)
trap 'rm -rf "$room"' EXIT
trap 'exit 1' HUP INT TERM

set --
for pattern in "$here"/*/pattern.txt; do
    folder=$(basename "$(dirname "$pattern")")
    set -- "$@" "$folder"
    echo "== $folder" && cat "$here/$folder/printed"
done >"$room/stored"
(cd "$here/.." && "$here/run.sh" "$@") >"$room/printed"
# -F has the folder's name beside the lines that differ.
diff -u -F '^== ' --label "the files 'printed'" --label run.sh "$room/stored" "$room/printed" || {
    echo "examples: run.sh prints something else than the files 'printed' have" >&2
    exit 1
}
echo "examples: run.sh prints what it should of all $#"
