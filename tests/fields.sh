#!/bin/sh
# Crate bits, through crate probe's static library, against bit-by-bit C.
set -eu
cd "$(dirname "$0")/.."
. tests/lib/tools.sh
compile fields probe
$RUN target/tests/fields
