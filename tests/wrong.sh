#!/bin/sh
# The wrong programs of the larger crates, crates/NAME/wrong/: each must be refused at the fact that it names.
# tests/wrong.sh [EDIT..] tries these alone; with --place in front it says where each is refused, and with --write it
# writes that into the edit.
set -eu
cd "$(dirname "$0")/.."
. tests/lib/tools.sh
need python3 python3
exec python3 -B tests/lib/wrong.py "$@"
