#!/bin/sh
# Saving and loading for C against the second program: holdings and bytes that are none, good and bad lines, each kind
# of them counted; sweeps over every bit of a holding and every byte of a line, and 150,000 random cases of each.
set -eu
cd "$(dirname "$0")/.."
. tests/lib/tools.sh
agree saved
