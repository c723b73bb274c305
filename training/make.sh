#!/bin/sh
# Makes the stretches of this folder and the listings beside them anew (tests/training.sh compares them).
set -eu
cd "$(dirname "$0")/.."
. tests/lib/tools.sh
. tests/lib/listings.sh
remake training training
