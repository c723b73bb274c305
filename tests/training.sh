#!/bin/sh
# training/: the files made anew, every program's listing of each, what the page says of them, and the calls in C.
set -eu
cd "$(dirname "$0")/.."
. tests/lib/tools.sh
. tests/lib/listings.sh
archive host
mkdir -p target/tests
$CC $FLAGS -Iinclude training/calls.c $(archives host) -o target/tests/calls
$RUN target/tests/calls >target/tests/calls.out
judge training
