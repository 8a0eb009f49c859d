#!/bin/sh
# records.sh FILE: the term that FILE writes as text, as a table of records on standard output.
# The text is words with blanks or line ends between: `@`, `\`, `#N`, `kN` and `pN` as in document 01, or the name of a constant in constants.txt.
# A constant's number has three bytes, and each other kind's has two.
set -eu
here=$(cd "$(dirname "$0")" && pwd)
escapes=$(LC_ALL=C awk '
    FILENAME == ARGV[1] { number[$1] = $2; next }
    {
        for (i = 1; i <= NF; i++) {
            kind = -1; n = 0
            if ($i == "@") kind = 0
            else if ($i == "\\") kind = 1
            else if ($i ~ /^#[0-9]+$/) { kind = 2; n = substr($i, 2) + 0 }
            else if ($i ~ /^k[0-9]+$/) { kind = 3; n = substr($i, 2) + 0 }
            else if ($i ~ /^p[0-9]+$/) { kind = 4; n = substr($i, 2) + 0 }
            else if ($i in number) { kind = 3; n = number[$i] + 0 }
            most = kind == 3 ? 16777215 : 65535
            if (kind < 0 || n > most) { print "records.sh: not a word of a term: " $i > "/dev/stderr"; exit 1 }
            printf "\\%03o\\%03o\\%03o\\%03o", kind, int(n / 65536), int(n / 256) % 256, n % 256
        }
    }' "$here/constants.txt" "$1")
# shellcheck disable=SC2059
printf "$escapes"
