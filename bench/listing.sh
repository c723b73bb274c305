#!/bin/sh
# bench/listing.sh: instructions of listing whole inputs, reading and writing included, for a byte of the listing; as
# the table of docs/PERFORMANCE.md.
set -eu
cd "$(dirname "$0")/.."
. bench/lib/measure.sh
build_listing

echo '| input | bytes of the listing | per byte |'
echo '|---|---|---|'
for input in $INPUTS; do
    set -- $(per_byte $input)
    printf '| (%s) | %d | %.1f |\n' "$input" "$1" "$2"
done
