# Sourced in the repository's root by the bench scripts and tests/bars.sh: what is measured, in instructions.
#   INPUTS                        the inputs that every table has (bench/stretches.h)
#   build_read, build_write,
#   build_fields, build_texts     make the programs that are measured
#   handed_out INPUT              what each decoder hands out for it: a checksum and totals; fails where they differ
#   reading WAY INPUT TOTAL..     with what handed_out says: a line DECODER PER-BIT PER-ROW PER-MESSAGE TO-BITWISE
#                                 TO-TUNED for each decoder; '-' where there are no rows
#   written INPUT                 what each writer writes of it: messages, bits and rows; fails where the bytes are not
#                                 the stretches' own, or the writers differ on what is no holding
#   writing INPUT TOTAL..         with what written says: a line WRITER .. for each writer, as reading's
#   measure_row INPUT             with such lines: what ours takes, and the others for a message, as a table's row
#   stack FUNCTION                the deepest stack of read, walk, empty, save, load, line or write over all inputs, in
#                                 bytes; but for write over damaged ones, too
#   frames [FUNCTION]             the same for every input, as the machine code shows it; without FUNCTION a table of all,
#                                 with the chain of frames (bench/lib/frames.py)
#   per_call KIND WIDTH           of a call (bench/fields.c) and its return: the mean over the eight alignments
#   build_listing                 makes the listing program, and what prints an input as its lines
#   per_byte INPUT                of listing it: how many bytes the listing has, and what each takes, reading included
. bench/lib/count.sh

INPUTS='a b c d e1 e2 e3 e4 f g2 g3 g4 g5 g6 g7 g11 h'

build_read() {
    build read host bench/read.c bench/meter.c bench/stretches.c bench/encode.c bench/bitwise.c bench/getbit.c \
        bench/tuned.c
}

build_write() {
    build write host bench/write.c bench/meter.c bench/stretches.c bench/encode.c bench/bitwise_write.c \
        bench/bitwise_hold.c bench/setbit.c bench/tuned_write.c bench/tuned_hold.c bench/tuned_test.c
}

build_texts() {
    build texts host bench/texts.c bench/meter.c bench/stretches.c bench/encode.c
}

build_fields() {
    build fields probe -Wno-cast-function-type bench/fields.c
}

build_listing() {
    ./hundurzek list >/dev/null
    $CC -static $FLAGS bench/lines.c bench/stretches.c bench/encode.c -o target/bench/lines
}

handed_out() {
    host=$($RUN target/bench/read host "$1" check)
    for decoder in tuned bitwise; do
        other=$($RUN target/bench/read $decoder "$1" check)
        if [ "$host" != "$other" ]; then
            echo "input $1: host and $decoder differ" >&2
            exit 1
        fi
    done
    echo "$host"
}

# per HOST TUNED BITWISE BITS ROWS MESSAGES: instructions of each, for these
per() {
    awk -v host="$1" -v tuned="$2" -v bitwise="$3" -v bits="$4" -v rows="$5" -v messages="$6" -v OFMT=%.6f '
        function line(name, n) {
            print name, n / bits, (rows > 0 ? n / rows : "-"), n / messages, n / bitwise, n / tuned
        }
        BEGIN {
            line("host", host)
            line("tuned", tuned)
            line("bitwise", bitwise)
        }'
}

# reading WAY INPUT CHECKSUM STRETCHES BITS PADDING ROWS MESSAGES ..
reading() {
    host=$(marked read host "$2" "$1" marked)
    tuned=$(marked read tuned "$2" "$1" marked)
    bitwise=$(marked read bitwise "$2" "$1" marked)
    per "$host" "$tuned" "$bitwise" "$5" "$7" "$8"
}

written() {
    host=$($RUN target/bench/write host "$1" check)
    strays=$($RUN target/bench/write host "$1" strays)
    for writer in tuned bitwise; do
        $RUN target/bench/write $writer "$1" check >/dev/null
        other=$($RUN target/bench/write $writer "$1" strays)
        if [ "$strays" != "$other" ]; then
            echo "input $1: host and $writer differ on strays" >&2
            exit 1
        fi
    done
    echo "$host"
}

# writing INPUT MESSAGES BITS ROWS
writing() {
    host=$(marked write host "$1" marked)
    tuned=$(marked write tuned "$1" marked)
    bitwise=$(marked write bitwise "$1" marked)
    per "$host" "$tuned" "$bitwise" "$3" "$4" "$2"
}

measure_row() {
    awk -v input="$1" '
        $1 == "host" { per_bit = $2; per_row = $3; to_bitwise = $5; to_tuned = $6 }
        { per_message[$1] = $4 }
        END {
            printf "| (%s) | %.2f | %s", input, per_bit, (per_row == "-" ? "-" : sprintf("%.1f", per_row))
            printf " | %.0f | %.0f", per_message["host"], per_message["tuned"]
            printf " | %.0f | %.3f | %.2f |\n", per_message["bitwise"], to_bitwise, to_tuned
        }'
}

stack() {
    for input in $INPUTS damaged; do
        case $1-$input in
        read-*) $RUN target/bench/read host $input messages stack ;;
        walk-*) $RUN target/bench/read host $input walks stack ;;
        empty-*) $RUN target/bench/read host $input empty stack ;;
        save-* | load-* | line-*) $RUN target/bench/texts "$1" $input ;;
        write-damaged) ;;
        write-*) $RUN target/bench/write host $input stack ;;
        esac
    done | sort -n | tail -n 1
}

frames() {
    need python3 python3
    need objdump binutils
    objdump -dr --no-show-raw-insn $(archives host) | python3 bench/lib/frames.py ${1:+"hundurzek_$1"}
}

# against calling a function of one instruction, its return: that and the call are added again
per_call() {
    own=$(round fields "$1" "$2")
    none=$(round fields "none-${1%-bits}" "$2")
    awk -v own="$own" -v none="$none" 'BEGIN { print (own - none) / 8 + 2 }'
}

# what the program takes to start and to end falls out of the difference
per_byte() {
    $RUN target/bench/lines "$1" >target/bench/lines.in
    none=$(listed /dev/null)
    all=$(listed target/bench/lines.in)
    awk -v all="$all" -v none="$none" -v bytes="$(wc -c <target/bench/listed)" 'BEGIN { print bytes, (all - none) / bytes }'
}
