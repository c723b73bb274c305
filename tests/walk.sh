#!/bin/sh
# The walk for C against the second program: document 01's bench cases and the sweeps from place 0, and 60,000
# random stretches one after another, the holding kept from stretch to stretch.
set -eu
cd "$(dirname "$0")/.."
. tests/lib/tools.sh
agree walk
