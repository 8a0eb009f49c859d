# What the program printed, with each value as text: `line 0: p1 = k0`. Its first file is constants.txt.
function hex(s, i, n) {
    n = 0
    for (i = 1; i <= length(s); i++) n = n * 16 + index("0123456789abcdef", substr(s, i, 1)) - 1
    return n
}
FILENAME == ARGV[1] { name[$2] = $1; next }
$1 == "matches" || $1 == "refused" { print; next }
$2 == "-" { print "line " $1 ": assigns nothing"; next }
{
    text = ""
    for (i = 4; i <= NF; i++) {
        kind = substr($i, 2, 1)
        # Three bytes: the first is the top byte of a constant, and zero in every other kind.
        n = hex(substr($i, 3))
        if (kind == "0") word = "@"
        else if (kind == "1") word = "\\"
        else if (kind == "2") word = "#" n
        else if (n in name) word = name[n]
        else word = "k" n
        text = text " " word
    }
    print "line " $1 ": p" $2 " =" text
}
