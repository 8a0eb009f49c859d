#!/bin/sh
# run.sh [path of the static library]: builds rewrite.c and rewrite.rs, runs both on the examples and on some terms that are refused, and compares what they
# print with the file `printed`; builds and runs book.c and shelf.c, and compares what they print with the files `printed_book` and `printed_shelf`. All
# three files were checked by hand. The library is crates/exports/out/libexports.a unless given.
set -eu
here=$(cd "$(dirname "$0")" && pwd)
top=$here/../..
library=${1:-$top/crates/exports/out/libexports.a}
[ -f "$library" ] || { echo "no static library at $library: 'cd crates/exports && rt lib' builds it" >&2; exit 2; }

room=$(mktemp -d)
trap 'rm -rf "$room"' EXIT
trap 'exit 1' HUP INT TERM
cc -std=c11 -Wall -Wextra -Werror -I"$top/include" "$here/rewrite.c" "$library" -o "$room/rewrite_c"
rustc --edition 2021 -O -D warnings "$here/rewrite.rs" -C link-arg="$library" -o "$room/rewrite_rs"
cc -std=c11 -Wall -Wextra -Werror -I"$top/include" "$here/book.c" "$library" -o "$room/book_c"
cc -std=c11 -Wall -Wextra -Werror -I"$top/include" "$here/shelf.c" "$library" -o "$room/shelf_c"

# term NAME TEXT: a file of records in the folder of the terms that are refused.
term() {
    printf '%s\n' "$2" >"$room/text"
    "$here/../records.sh" "$room/text" >"$room/refused/$1.rec"
}

# run_all PROGRAM
run_all() {
    for right in "$here"/../*/right.rec; do
        folder=$(dirname "$right")
        echo "== $(basename "$folder")"
        "$1" "$folder" || echo "status $?"
    done
    echo "== refused"
    mkdir -p "$room/refused"
    term pattern '@ map p0' && term right '@ map @ @ compose p0 p1' && term recipe '@ map square'
    "$1" "$room/refused" || echo "status $?"
    term recipe '@ map \ @ square #0'
    "$1" "$room/refused" || echo "status $?"
    term recipe '@ map'
    "$1" "$room/refused" || echo "status $?"
    term pattern '@ map #0'
    "$1" "$room/refused" || echo "status $?"
    # No text gives these records: a local and a variable whose second byte isn't zero, as a constant's may be.
    term pattern '@ map p0' && printf '\002\001\000\000' >"$room/refused/recipe.rec"
    "$1" "$room/refused" || echo "status $?"
    printf '\004\001\000\000' >"$room/refused/pattern.rec"
    "$1" "$room/refused" || echo "status $?"
}

# compare PROGRAM STORED: what PROGRAM printed, with the file STORED.
compare() {
    diff "$here/$2" "$room/printed" || { echo "examples/link: $1 prints something else than the file '$2'" >&2; exit 1; }
}

for folder in "$here"/../*/; do
    for text in "$folder"*.txt; do
        [ -f "$text" ] || continue
        "$here/../records.sh" "$text" | cmp - "${text%.txt}.rec"
    done
done
for program in rewrite_c rewrite_rs; do
    run_all "$room/$program" >"$room/printed"
    compare "$program" printed
done
"$room/book_c" >"$room/printed" || echo "status $?" >>"$room/printed"
compare book_c printed_book
"$room/shelf_c" "$room" >"$room/printed" || echo "status $?" >>"$room/printed"
compare shelf_c printed_shelf
echo "examples/link: the programs print what they should"
