#!/bin/sh
# bench/read.sh: instructions of reading whole stretches, the holding kept, through the host interface ('host'), with a
# decoder in C that is tuned ('tuned') and with one that gets its fields bit by bit ('bitwise'), by walks and message by
# message; as the tables of docs/PERFORMANCE.md. Fails where they do not hand out the same, also for damaged stretches,
# or a walk is not its readings one after another. The stack of the functions for lines is measured here, too, and that of
# all functions told by their machine code.
set -eu
cd "$(dirname "$0")/.."
. bench/lib/measure.sh
build_read
build_texts

# columns NUMBER..: as the columns of a table
columns() {
    echo "$*" | sed 's/ / | /g'
}

# input_row INPUT CHECKSUM TOTAL..
input_row() {
    input=$1
    shift 2
    echo "| ($input) | $(columns "$@") |"
}

# reading_table WAY: the inputs read in this way
reading_table() {
    echo
    echo "| by $1 | per bit | per row | per message | tuned | bitwise | to bitwise | to tuned |"
    echo '|---|---|---|---|---|---|---|---|'
    while read -r input totals; do
        read_so=$(reading "$1" "$input" $totals)
        echo "$read_so" | measure_row "$input"
    done <$handed
}

# stack_row FUNCTION
stack_row() {
    bytes=$(stack "$1")
    echo "| hundurzek_$1 | $bytes |"
}

# growth_row PARTS CHECKSUM STRETCHES BITS PADDING ROWS MESSAGES ..
growth_row() {
    n=$(marked read host "$1" walks marked)
    per_bit=$(awk -v n="$n" -v bits="$4" 'BEGIN { printf "%.3f", n / bits }')
    echo "| $(columns "$1" "$3" "$4" "$6" "$7" "$n" $((n / $3)) "$per_bit") |"
}

# stops_row CHECKSUM STRETCHES BITS PADDING ROWS MESSAGES SUBTYPE.. STOP..: of damaged stretches
stops_row() {
    stretches=$2
    messages=$6
    shift 15
    echo "| $(columns "$stretches" "$messages" "$@") |"
}

handed=target/bench/handed
for input in $INPUTS; do
    totals=$(handed_out "$input")
    echo "$input $totals"
done >$handed

echo '| input | stretches | bits | padding | rows | messages | sub type 1 | 2 | 3 | 4 | 5 | 6 | 7 | 10 | 11 |'
echo '|---|---|---|---|---|---|---|---|---|---|---|---|---|---|---|'
while read -r input totals; do
    input_row "$input" $totals
done <$handed
reading_table walks
echo
echo '| data parts | stretches | bits | rows | messages | instructions, host | per stretch | per bit |'
echo '|---|---|---|---|---|---|---|---|'
for parts in 1 5 30; do
    totals=$(handed_out $parts)
    growth_row $parts $totals
done
reading_table messages
echo
echo '| damaged stretches | messages | stop 0 | 1 | 2 | 3 | 4 | 5 | 6 | 7 | 8 | 9 | 10 | 11 | 12 | 13 |'
echo '|---|---|---|---|---|---|---|---|---|---|---|---|---|---|---|---|'
totals=$(handed_out damaged)
stops_row $totals
echo
echo '| function | deepest stack, bytes |'
echo '|---|---|'
for function in empty read walk save load line; do
    stack_row $function
done
echo
echo '| function | on any input, bytes | frames, up to the call of the next |'
echo '|---|---|---|'
frames
