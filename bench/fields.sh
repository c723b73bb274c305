#!/bin/sh
# bench/fields.sh: instructions per call of read_field and write_field and of a plain bit-by-bit loop in
# C, at five widths, the mean over the eight alignments; as the table of docs/PERFORMANCE.md.
set -eu
cd "$(dirname "$0")/.."
. bench/lib/measure.sh
build_fields

echo '| width | read_field | bit by bit | write_field | bit by bit |'
echo '|---|---|---|---|---|'
for width in 4 11 13 15 40; do
    printf '| %s' $width
    for kind in read read-bits write write-bits; do
        calls=$(per_call $kind $width)
        printf ' | %.1f' "$calls"
    done
    echo ' |'
done
