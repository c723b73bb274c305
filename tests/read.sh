#!/bin/sh
# The host interface against the second program: document 01's bench cases, sweeps, 300,000 random readings,
# and 22,000 random stretches read message by message, the holding kept in the host's bytes.
set -eu
cd "$(dirname "$0")/.."
. tests/lib/tools.sh
agree read
