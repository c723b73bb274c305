#!/bin/sh
# Holds the bars of bench/bars: measures as the bench scripts do, and prints each measure beside its limit.
set -eu
cd "$(dirname "$0")/.."
. bench/lib/measure.sh
build_read
build_texts
build_write
build_fields
build_listing

# once FUNCTION INPUT: what it says of the input, handed_out or written; decoders and writers are compared once for all
# bars
rm -f target/bench/once.*
once() {
    if [ ! -f "target/bench/once.$1.$2" ]; then
        "$1" "$2" >target/bench/saying
        mv target/bench/saying "target/bench/once.$1.$2"
    fi
    cat "target/bench/once.$1.$2"
}

# named WAY INPUT: a line WAY INPUT MEASURE NUMBER for each measure of ours among the lines of reading or writing
named() {
    awk -v of="$1 $2" '
        $1 == "host" {
            print of, "per-bit", $2
            print of, "per-row", $3
            print of, "per-message", $4
            print of, "to-bitwise", $5
            print of, "to-tuned", $6
        }'
}

# measures WAY INPUT: a line WAY INPUT MEASURE NUMBER for each measure that a bar can name
measures() {
    case $1 in
    walks | messages)
        totals=$(once handed_out "$2")
        reading "$1" "$2" $totals | named "$1" "$2"
        ;;
    writes)
        totals=$(once written "$2")
        writing "$2" $totals | named "$1" "$2"
        ;;
    stack)
        bytes=$(stack "$2")
        echo "$1 $2 bytes $bytes"
        ;;
    frames)
        bytes=$(frames "$2")
        echo "$1 $2 bytes $bytes"
        ;;
    listing)
        bytes=$(per_byte "$2")
        echo "$1 $2 per-byte ${bytes#* }"
        ;;
    fields)
        read_field=$(per_call read "$2")
        write_field=$(per_call write "$2")
        echo "$1 $2 read_field $read_field"
        echo "$1 $2 write_field $write_field"
        ;;
    esac
}

measured=target/bench/measured
awk '!/^#/ { print $1, $2 }' bench/bars | sort -u | while read -r way input; do
    measures "$way" "$input"
done >$measured

# a bar that nothing measures is not held
awk '
    /^#/ { next }
    NR == FNR { number[$1, $2, $3] = $4; next }
    {
        got = number[$1, $2, $3] + 0
        held = got > 0 && got <= $4 + 0
        passed += held
        failed += !held
        printf "%-8s %5s %-12s %9.3f, at most %s%s\n", $1, $2, $3, got, $4, held ? "" : ": NOT HELD"
    }
    END {
        printf "%d passed, %d failed\n", passed, failed
        exit failed > 0
    }' $measured bench/bars
