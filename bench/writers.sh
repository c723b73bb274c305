#!/bin/sh
# bench/writers.sh: the other writers, bit by bit ('bitwise') and tuned ('tuned'), against the second program, on the
# streams of tests/write.sh.
set -eu
cd "$(dirname "$0")/.."
. tests/lib/tools.sh
others='bench/as_host.c bench/bitwise_write.c bench/bitwise_hold.c bench/setbit.c bench/tuned_write.c
bench/tuned_hold.c bench/tuned_test.c'
for writer in bitwise_write tuned_as_host; do
    echo "== $writer"
    agree write -Ibench "-Dhundurzek_write=$writer" $others
done
