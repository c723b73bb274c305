#!/bin/sh
# Writing for C against the second program: every single change of 2,100 good writes; 300,000 random writes, each answer
# and each kind of refusal counted; 100,000 messages read, written back at the same place and another, read again.
set -eu
cd "$(dirname "$0")/.."
. tests/lib/tools.sh
agree write
