#!/bin/sh
# training/pictures.sh [FOLDER]: takes the pictures of this page and of README.md anew, from the bench page in a browser.
# They look a little different with other fonts, so they are not compared.
set -eu
cd "$(dirname "$0")/.."
. tests/lib/tools.sh
. tests/lib/browser.sh
./hundurzek page target/pictures.html
$PYTHON -B tests/lib/pictures.py target/pictures.html "${1:-training/pictures}"
