#!/bin/sh
# bench/worst.sh: which stretch takes the most instructions a bit through the host interface, by walks and message by
# message; as the tables of docs/PERFORMANCE.md. Searches in three steps: one message again and again, of each sub type
# and with various selections and sizes, under masks of various numbers of systems, satellites, signals and cells; what
# is near the worst of each kind; then mixes of these. Takes a few minutes; finds the same at every run.
set -eu
cd "$(dirname "$0")/.."
# what is drawn for a line depends on those before it, so their order must not depend on the language
export LC_ALL=C
. bench/lib/count.sh
build worst host bench/worst.c bench/encode.c
work=target/bench/worst.lines
mkdir -p $work

# measured WAY: the lines of $work/lines (bench/worst.c), each after PER-BIT PER-MESSAGE BITS MESSAGES, the worst first
measured() {
    count worst "$1" $work/lines $work/made >$work/marks
    awk '
        NR == FNR { mark[NR] = $1; next }
        FNR == 1 { none = mark[2] - mark[1] }
        {
            n = mark[2 * FNR + 2] - mark[2 * FNR + 1] - none
            per_message = ($2 > 0 ? n / $2 : n)
            printf "%.3f %.1f %s\n", ($1 > 0 ? n / $1 : 0), per_message, $0
        }' $work/marks $work/made | sort -k 1,1 -rn -s
}

# first: the lines of the first step
first() {
    awk 'BEGIN {
        systems = split("0 1 2 3 5", y)
        satellites = split("0 1 2 4 8 16 32 63 64", s)
        signals = split("0 1 4 8", g)
        for (a = 1; a <= systems; a++)
            for (b = 1; b <= satellites; b++)
                for (c = 1; c <= signals; c++) {
                    masks(y[a], s[b], g[c], 0, g[c])
                    masks(y[a], s[b], g[c], 1, 0)
                    if (g[c] > 0) masks(y[a], s[b], g[c], 1, g[c])
                }
    }
    function masks(y, s, g, f, c,    mask, first, second) {
        if (s * c > 256 || s > 40 * y || (y == 0 && g > 0)) return
        mask = y "." s "." g "." f "." c
        print mask, "m\n" mask, "2\n" mask, "3\n" mask, "4\n" mask, "5\n" mask, "7"
        print mask, "10.0\n" mask, "10.3"
        for (first = 0; first <= 1; first++)
            for (second = 0; second <= 1; second++) {
                networks(mask, "11." first "." second ".", s)
                networks(mask, "6." first "." second ".", c > 0 ? s : 0)
            }
    }
    function networks(mask, message, most) {
        print mask, message "n"
        print mask, message "0"
        if (most > 0) print mask, message most
        if (most > 1) print mask, message int(most / 2)
    }'
}

# kinds: of what is given as measured, the worst with each kind of message: a selection's number does not count
kinds() {
    awk '{
        kind = $6
        if (kind ~ /^(6|11)\./) sub(/[1-9][0-9]*$/, "some", kind)
    }
    !seen[kind]++'
}

# near: the lines near those that are given as measured
near() {
    awk '
    function try(y, s, g, f, c, message,    selection) {
        if (y < 0 || y > 5 || s < 0 || s > 64 || s > 40 * y || g < 0 || g > 9 || (y == 0 && g > 0)) return
        if (c > g || (f == 0 && c < g) || s * c > 256) return
        selection = message
        if (sub(/^(6|11)\..\..\./, "", selection) && selection + 0 > s) return
        if (message ~ /^6/ && selection + 0 > 0 && c == 0) return
        print y "." s "." g "." f "." c, message
    }
    {
        split($5, m, ".")
        for (y = 0; y <= 5; y++)
            for (d = -2; d <= 2; d++) try(y, m[2] + d, m[3], m[4], m[5], $6)
        for (g = 0; g <= 9; g++)
            for (c = 0; c <= g; c++) {
                try(m[1], m[2], g, 1, c, $6)
                try(m[1], m[2], g, 0, c, $6)
            }
    }' | sort -u
}

# mixes: each two of those given, and each three of the first six, each after its mask; and each two under one mask,
# unless a selection is of that other mask's satellites
mixes() {
    awk '
    { mask[NR] = $5; message[NR] = $6 }
    END {
        for (i = 1; i <= NR; i++)
            for (j = 1; j <= NR; j++) {
                if (i == j) continue
                print mask[i], part(i) "," part(j)
                if (message[j] !~ /^(6|11)\..\..\.[1-9]/) print mask[i], message[i] "," message[j]
                for (k = 1; i <= 6 && j <= 6 && k <= 6; k++) print mask[i], part(i) "," part(j) "," part(k)
            }
    }
    function part(i) { return "m" mask[i] "," message[i] }'
}

# table_row WHAT: of the worst one given
table_row() {
    read -r per_bit per_message bits messages mask loop
    echo "| $1 | $per_bit | $per_message | $mask | $loop | $bits | $messages |"
}

for way in walks messages; do
    first >$work/lines
    measured $way >$work/first
    kinds <$work/first | near >$work/lines
    measured $way >$work/near
    sort -k 1,1 -rn -s $work/first $work/near | kinds >$work/worst
    head -n 12 $work/worst | mixes >$work/lines
    measured $way >$work/mixes
    echo "| by $way | per bit | per message | mask | back to back | bits | messages |"
    echo '|---|---|---|---|---|---|---|'
    head -n 6 $work/worst | while read -r line; do
        echo "$line" | table_row 'one message'
    done
    table_row 'a mix' <$work/mixes
    echo
done
echo '| nothing to read | mask held | instructions |'
echo '|---|---|---|'
echo '5.64.4.1.4 -' >$work/lines
echo '0.0.0.0.0 -' >>$work/lines
for way in walks messages; do
    measured $way | while read -r per_bit n bits messages mask loop; do
        echo "| by $way | $mask | $n |"
    done
done
