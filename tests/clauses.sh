#!/bin/sh
# What C calls stands in static libraries of its own (host_c, host_write_c, probe_c), and the theorems are about the
# functions that these call: each must have the parameters, the result and the clauses of the one that it calls, word by
# word, and its definitions from the same modules.
set -eu
cd "$(dirname "$0")/.."
. tests/lib/tools.sh
need python3 python3
exec python3 tests/lib/clauses.py
