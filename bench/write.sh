#!/bin/sh
# bench/write.sh: instructions of writing all messages of whole stretches back, one by one, the holding lent and tested
# each time, through the host interface ('host'), with a writer in C that is tuned ('tuned') and with one that sets its
# fields bit by bit ('bitwise'); as the tables of docs/PERFORMANCE.md. Fails where the bytes written are not the
# stretches' own, or the writers differ on a holding with a byte changed.
set -eu
cd "$(dirname "$0")/.."
. bench/lib/measure.sh
build_write

# tested_row INPUT MESSAGES BITS ROWS: what a call takes that ends with the holding's test
tested_row() {
    input=$1
    messages=$2
    for writer in host tuned bitwise; do
        marked write $writer "$input" tested
    done | awk -v input="$input" -v messages="$messages" '
        { row = row sprintf(" | %.0f", $1 / messages) }
        END { print "| (" input ")" row " |" }'
}

wrote=target/bench/wrote
for input in $INPUTS; do
    totals=$(written "$input")
    echo "$input $totals"
done >$wrote

echo '| by writes | per bit | per row | per message | tuned | bitwise | to bitwise | to tuned |'
echo '|---|---|---|---|---|---|---|---|'
while read -r input totals; do
    wrote_so=$(writing "$input" $totals)
    echo "$wrote_so" | measure_row "$input"
done <$wrote
echo
echo '| the holding tested | host | tuned | bitwise |'
echo '|---|---|---|---|'
while read -r input totals; do
    tested_row "$input" $totals
done <$wrote
echo
echo '| function | deepest stack, bytes |'
echo '|---|---|'
bytes=$(stack write)
echo "| hundurzek_write | $bytes |"
