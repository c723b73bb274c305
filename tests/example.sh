#!/bin/sh
# The C example of docs/HOST.md against the whole output that document 01, with document 02's Ask 7, gives for its worked
# listing; its status says whether what it wrote was what it had read.
set -eu
cd "$(dirname "$0")/.."
. tests/lib/tools.sh
compile example host
$RUN target/tests/example >target/tests/example.got || echo "status $?" >>target/tests/example.got
tr ' ' '\t' >target/tests/example.want <<'END'
M 0 114 1 100 5 0 3 1 - - 0
M 114 67 3 100 2 0 3 - - - 2
R 0 1 - 5 - - - -
R 0 3 - -16384 - - - -
E 0 181 2 2 -
END
if diff target/tests/example.want target/tests/example.got; then
    echo '1 passed, 0 failed'
else
    echo '0 passed, 1 failed'
    exit 1
fi
