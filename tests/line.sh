#!/bin/sh
# A line of the listing's input for C against the second program: good lines of all lengths and each kind of bad one,
# counted; all short lines, every byte at every place of one, and 150,000 random lines.
set -eu
cd "$(dirname "$0")/.."
. tests/lib/tools.sh
agree line
