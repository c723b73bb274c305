#!/bin/sh
# Makes the groups of this folder and the listings beside them anew (tests/vectors.sh compares them).
set -eu
cd "$(dirname "$0")/.."
. tests/lib/tools.sh
. tests/lib/listings.sh
remake vectors vectors
