#!/bin/sh
# The second program's own tests: the worked listing, the bench cases, its saved line, round trips.
set -eu
cd "$(dirname "$0")/.."
. tests/lib/tools.sh
second
target/tests/second test
