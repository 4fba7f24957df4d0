# True if the output shows the lines that a page prints: all of them, one after the other. A line `...` stands for any lines.
#
# usage: awk -f shows.awk PRINTED OUTPUT
#
# Exit status: 0 where it does, 1 where it does not, and 2 where only the solutions (`v` and `o` lines) are others.

function alike(one, other, loosely) {
    if (one == other) return 1
    return loosely && one ~ /^[vo] / && substr(one, 1, 2) == substr(other, 1, 2)
}

# Where in the output, from a line on, the printed lines from `first` to `final` stand; 0 where they do not.
function find(first, final, from, loosely,    at, i) {
    for (at = from; at + final - first <= got; at++) {
        for (i = first; i <= final && alike(wanted[i], output[at + i - first], loosely); i++) continue
        if (i > final) return at
    }
    return 0
}

function shows(loosely,    first, i, at) {
    at = first = 1
    for (i = 1; i <= many + 1; i++) {
        if (i <= many && wanted[i] != "...") continue
        if (i > first) {
            at = find(first, i - 1, at, loosely)
            if (!at) return 0
            at += i - first
        }
        first = i + 1
    }
    return 1
}

NR == FNR { wanted[++many] = $0; next }
{ output[++got] = $0 }
END { exit shows(0) ? 0 : shows(1) ? 2 : 1 }
