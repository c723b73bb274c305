#!/bin/sh
# The listing program against the second program, byte for byte, with the saved mask after each input: document 01's
# worked listing and its bench cases 2, 8, 9, 10 and 14; what document 02 (Asks 1 and 2) adds, put down by hand; 24,000
# lines, good ones and each kind of bad one, counted; and inputs that come in pieces of 1 byte, 7 bytes and 4,096 bytes.
set -eu
cd "$(dirname "$0")/.."
. tests/lib/tools.sh
. tests/lib/judge.sh
second
$CC $FLAGS tests/lib/pieces.c -o target/tests/pieces
work=target/tests/listing
rm -rf "$work"
mkdir -p "$work"

# The proved program: the listing of the standard input, and the saved mask after it.
PROVED=${PROVED:-./hundurzek}
proved() { $PROVED list -; }
proved_mask() { $PROVED save -; }

other() { target/tests/second listing; }
other_mask() { target/tests/second mask; }

pieces() { $RUN target/tests/pieces "$@"; }

# same WHAT GOT WANT: whether two files are; tells the first lines that differ
same() {
    if cmp -s "$2" "$3"; then
        judge "$1" yes
    else
        judge "$1" no
        diff -a "$3" "$2" | cut -c 1-200 | head -n 6
    fi
}

# expected WHAT: what both programs must print for some input; it comes on the standard input with spaces for tabs, the
# lines to list after '<', those to be printed after '>', and the saved mask after '='
expected() {
    tr ' ' '\t' >"$work/case"
    sed -n 's/^<\t//p' "$work/case" >"$work/in"
    sed -n 's/^[>=]\t//p' "$work/case" >"$work/want"
    { proved <"$work/in" && proved_mask <"$work/in"; } >"$work/got" || echo "status $?" >>"$work/got"
    same "$1" "$work/got" "$work/want"
    { other <"$work/in" && other_mask <"$work/in"; } >"$work/got"
    same "$1, second program" "$work/got" "$work/want"
}

# agreed WHAT: whether both programs print the same for the input in $work/in, which 'feed' feeds to the proved one
agreed() {
    other <"$work/in" >"$work/want"
    feed <"$work/in" | proved >"$work/got" || echo "status $?" >>"$work/got"
    same "$1" "$work/got" "$work/want"
    other_mask <"$work/in" >"$work/want.mask"
    feed <"$work/in" | proved_mask >"$work/got.mask" || echo "status $?" >>"$work/got.mask"
    same "$1, saved mask" "$work/got.mask" "$work/want.mask"
}

# ---- document 01; the last field of E is document 02's, Ask 7

expected 'the worked listing' <<'END'
< 181 FE91000645188500000000040806FFA4C1908600160000
> M 0 114 1 100 5 0 3 1 - - 0
> M 114 67 3 100 2 0 3 - - - 2
> R 0 1 - 5 - - - -
> R 0 3 - -16384 - - - -
> E 0 181 2 2 -
= S 3 0 A000000000 8100 1 B
END
expected 'bench 2: its first 180 bits, of which the clocks lack one' <<'END'
< 180 FE91000645188500000000040806FFA4C190860016000
> M 0 114 1 100 5 0 3 1 - - 0
> E 3 114 1 0 1
= S 3 0 A000000000 8100 1 B
END
expected 'bench 8: 40 GPS and 24 BeiDou, then 25' <<'END'
< 171 FE910006451907FFFFFFFFF80000FFFFFFC00000000
< 171 FE910006451907FFFFFFFFF80000FFFFFFE00000000
> M 0 171 1 100 5 0 3 2 - - 0
> E 0 171 1 0 -
> E 10 0 0 0 -
= S 3 0 FFFFFFFFFF 0000 0 - 3 FFFFFF0000 0000 0 -
END
expected 'bench 9: 32 GPS by 8 signals, then by 9' <<'END'
< 110 FE910006451887FFFFFFF807F800
< 110 FE910006451887FFFFFFF807FC00
> M 0 110 1 100 5 0 3 1 - - 0
> E 0 110 1 0 -
> E 10 0 0 0 -
= S 3 0 FFFFFFFF00 FF00 0 -
END
expected 'bench 10: 11 zero bits, 11 bits with a one, 12 bits of 4072' <<'END'
< 11 000
< 11 FE8
< 12 FE8
> E 0 0 0 0 -
> E 3 0 0 0 1
> E 4 0 0 0 -
= S -
END
expected 'bench 14: sub type 12' <<'END'
< 37 FE9C064218
> E 5 0 0 0 -
= S -
END
expected 'no lines' <<'END'
= S -
END

# ---- document 02, Ask 1: under the worked mask accuracies, and biases of satellite 3 for network 31; then satellite 3
# without a cell, selected and refused right after the selection, and not selected

expected 'sub types 7 and 6' <<'END'
< 266 FE91000645188500000000040806FFA5C19087F8FFD2C0C843FF6003FFFC02C0000
> M 0 114 1 100 5 0 3 1 - - 0
> M 114 49 7 100 2 0 3 - - - 2
> R 0 1 - 63 - - - -
> R 0 3 - 7 - - - -
> M 163 103 6 100 2 0 3 1 1 31 2
> R 0 3 0 -1024 16383 3 - -
> R 0 3 7 5 -16384 0 - -
> E 0 266 3 4 -
= S 3 0 A000000000 8100 1 B
END
expected 'a satellite without a cell' <<'END'
< 161 FE910006451885000000000408073FA5819087438
< 62 FE9606421C00BFFC
> M 0 114 1 100 5 0 3 1 - - 0
> E 11 114 1 0 -
> M 0 62 6 100 2 0 3 1 0 - 2
> R 0 1 0 5 - - - -
> R 0 1 7 -1 - - - -
> E 0 62 1 2 -
= S 3 0 A000000000 8100 1 C
END

# ---- document 02, Ask 2: masks that change under the worked mask's issue, and what is held after that

expected 'the same mask again, then other cells: nothing is held, so that they are taken' <<'END'
< 114 FE91000645188500000000040806C
< 114 FE91000645188500000000040806C
< 114 FE91000645188500000000040807C
< 67 FE930642180058000
< 114 FE91000645188500000000040807C
> M 0 114 1 100 5 0 3 1 - - 0
> E 0 114 1 0 -
> M 0 114 1 100 5 0 3 1 - - 0
> E 0 114 1 0 -
> E 13 0 0 0 -
> E 6 0 0 0 -
> M 0 114 1 100 5 0 3 1 - - 0
> E 0 114 1 0 -
= S 3 0 A000000000 8100 1 F
END
expected 'cell flag 0, which means all cells, for cell flag 1 with all of them' <<'END'
< 114 FE91000645188500000000040807C
< 110 FE91000645188500000000040800
> M 0 114 1 100 5 0 3 1 - - 0
> E 0 114 1 0 -
> E 13 0 0 0 -
= S -
END
expected 'two systems in the other order, in one stretch behind the mask that they drop' <<'END'
< 432 FE91000645190500000000040806D200000000020001FD260C843000B0000000FF488003228C9200000000020000140000000010201B
> M 0 175 1 100 5 0 3 2 - - 0
> M 175 82 3 100 2 0 3 - - - 3
> R 0 1 - 5 - - - -
> R 0 3 - -16384 - - - -
> R 4 1 - 1 - - - -
> E 13 257 2 3 -
= S -
END
expected 'no systems, dropping and dropped; other cells under another number' <<'END'
< 114 FE91000645188500000000040806C
< 49 FE91000645180
< 49 FE91000645180
< 114 FE91000645188500000000040806C
< 114 FE91000645188500000000040806C
< 114 FE91000645208500000000040807C
> M 0 114 1 100 5 0 3 1 - - 0
> E 0 114 1 0 -
> E 13 0 0 0 -
> M 0 49 1 100 5 0 3 0 - - 0
> E 0 49 1 0 -
> E 13 0 0 0 -
> M 0 114 1 100 5 0 3 1 - - 0
> E 0 114 1 0 -
> M 0 114 1 100 5 0 4 1 - - 0
> E 0 114 1 0 -
= S 4 0 A000000000 8100 1 F
END

# ---- small inputs, and lines around lengths that a buffer may have, fed as they are

feed() { cat; }
for text in '\n' '\n\n' '0\t\n' '0\t' '0' '\t' '\000' '\000\n' '0\t\r\n' '0\t\r' '1\t8\n1\t8' '12\tFE9\n\n12\tFE8\n'; do
    printf "$text" >"$work/in"
    agreed "$text"
done
head -c 3000000 /dev/zero | tr '\000' A >"$work/in"
agreed 'megabytes without a line feed'

# edges: a good line and a bad one of each length around some, and around 50,850 bits
edges() {
    awk 'function both(length_of_line, digits) {
            digits = length_of_line - 2 - length(4 * length_of_line)
            while (length(4 * digits) + digits + 2 < length_of_line) digits++
            print 4 * digits "\t" substr(zeros, 1, digits)
            print "8\t" substr(zeros, 1, length_of_line - 3)
        }
        BEGIN {
            zeros = "0"
            while (length(zeros) < 70000) zeros = zeros zeros
            for (n = split("64 256 512 4096 8192 12288 12720 16384 32768 65536", around); n > 0; n--)
                for (more = -4; more <= 4; more++) both(around[n] + more)
        }'
}

edges >"$work/in"
agreed 'lengths of lines'

# ---- lines by the numbers

kinds=$work/kinds
printed=$work/printed

# input SEED COUNT: so many lines are listed, and what came is noted
input() {
    target/tests/second lines "$1" "$2" >"$work/in" 2>>"$kinds"
    agreed "$2 lines of seed $1"
    cat "$work/want" >>"$printed"
}

input 1 12000
for seed in $(seq 2 25); do
    input "$seed" 500
done

# ---- in pieces

for sizes in 1 7 4096 '1 4096 2 63 3'; do
    feed() { pieces $sizes; }
    for seed in 26 27; do
        target/tests/second lines $seed 60 >"$work/in" 2>/dev/null
        agreed "60 lines of seed $seed in pieces of $sizes"
    done
done
feed() { pieces 4096 1; }
edges >"$work/in"
agreed 'lengths of lines in pieces'

# ---- what came

# often COLUMN LINES: how often each text stands in the column of the lines that begin so, as 'NUMBER TEXT'
often() {
    awk -F '\t' -v at="$1" -v kind="$2" '$1 == kind { n[$at]++ } END { for (t in n) print n[t] "\t" t }' "$printed"
}

# must WHAT LEAST..: of what comes as 'NUMBER TEXT', so many of each text that the arguments name as LEAST:TEXT
must() {
    what=$1
    shift
    awk -F '\t' '{ n[$2] += $1 } END { for (t in n) print n[t] "\t" t }' | sort -k 2 >"$work/came"
    for each; do
        text=${each#*:}
        came=$(awk -F '\t' -v text="$text" '$2 == text { print $1 }' "$work/came")
        printf '%-12s %-28s %7d\n' "$what" "$text" "${came:-0}"
        if [ "${came:-0}" -ge "${each%%:*}" ]; then judge "$what $text" yes; else judge "too few: $what $text" no; fi
    done
}

# missing: what the last field of each E is, a number beside stop 3 and - beside every other; 'stray' is anything else
missing() {
    awk -F '\t' '$1 == "E" {
        n = $6
        if (NF != 6 || n !~ ($2 == 3 ? "^[1-9][0-9]*$" : "^-$")) n = "stray"
        else if (n != "-") n = n < 2 ? "1" : n < 5 ? "2 to 4" : n < 41 ? "5 to 40" : n < 256 ? "41 to 255" : "over 255"
        print 1 "\t" n
    }' "$printed"
}

must 'line' 12000:plain 800:'mask missed' 500:'changed mask' 500:cut 500:'damaged bits' 50:'late joiner' \
    10:'last without its line feed' 5:megabytes 100:'over 50850 bits' 100:'count over 50850' 50:'long line' \
    200:'lower case digit' 50:'lower case' 150:'leading zero' 200:'spare bits set' 150:'digit missing' \
    150:'digit too many' 50:'CR LF' 50:NUL 20:'empty line' 150:'no tab' 150:'two tabs' 100:'no count' \
    150:'another count' 150:'wrapping count' 150:'sign or space' 50:'count in hex' 50:'digits before the count' \
    50:'another character' 50:'two other characters' 50:'any byte' 50:'one bit of a character' \
    50:'character dropped' 50:'character doubled' 50:'character put in' 50:'neighbours swapped' \
    50:'space for a tab' 50:'in front' 10:'random bytes' 20:'random characters' <"$kinds"
often 2 E | must 'stop' 5000:0 1000:3 1000:4 200:5 50:6 1000:7 200:8 200:9 200:10 200:11 500:13
missing | must 'missing' 10000:- 100:1 200:'2 to 4' 500:'5 to 40' 200:'41 to 255' 100:'over 255'
if grep -q stray "$work/came"; then judge 'a number of missing bits beside another stop than 3' no; else judge missing yes; fi
often 4 M | must 'sub type' 10000:1 4000:2 4000:3 4000:4 4000:5 10000:6 4000:7 5000:10 10000:11
awk -F '\t' '{ print 1 "\t" $1 }' "$printed" | must 'printed' 5000:B 15000:E 60000:M 500000:R

echo "$passed passed, $failed failed"
[ "$failed" -eq 0 ]
