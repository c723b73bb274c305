#!/bin/sh
# vectors/: the groups made anew, every program's listing of each, and that each group has what its page says.
set -eu
cd "$(dirname "$0")/.."
. tests/lib/tools.sh
. tests/lib/listings.sh
judge vectors
