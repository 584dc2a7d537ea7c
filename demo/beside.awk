# Prints each line of a script with its replies beside it. The script comes first, then what was answered to it. What isn't
# an answer to one of its lines is printed as it stands.
function show(n) {
    if (count[n] == 0) {
        print line[n]
    }
    for (i = 1; i <= count[n]; i++) {
        printf "%-47s %s\n", i == 1 ? line[n] : "", reply[n, i]
    }
}
FNR == NR {
    line[FNR] = $0
    lines = FNR
    next
}
$1 ~ /^[0-9]+$/ && $1 <= lines {
    reply[$1, ++count[$1]] = $0
    next
}
{
    rest[++others] = $0
}
END {
    for (n = 1; n <= lines; n++) {
        show(n)
    }
    for (i = 1; i <= others; i++) {
        print rest[i]
    }
}
