#!/bin/sh
# The bench page in a browser without a screen: every training case, lines by the numbers against the second program and
# against tests/lib/fields.py, pointing, keyboard, long input, two receivers, and layouts that are broken on purpose.
set -eu
cd "$(dirname "$0")/.."
. tests/lib/tools.sh
. tests/lib/browser.sh
work=target/tests/page
rm -rf "$work"
mkdir -p "$work"
copies=$(mktemp -d)
trap 'rm -rf "$copies"' EXIT

second

# broken NAME EDIT: the page of a copy of the repository in which sed changed page/layout.js, $work/NAME.html. (The copy
# lies outside: `rt ci` takes one crates.txt below the root.)
broken() {
    copy=$copies/$1
    mkdir -p "$copy/crates" "$copy/target"
    : >"$copy/crates.txt"
    cp -R hundurzek page library include training "$copy"
    cp -R target/module "$copy/target"
    sed "$2" page/layout.js >"$copy/page/layout.js"
    if cmp -s page/layout.js "$copy/page/layout.js"; then
        echo "FAILED: page/layout.js has nothing to break for: $1"
        echo '0 passed, 1 failed'
        exit 1
    fi
    "$copy/hundurzek" page "$PWD/$work/$1.html"
}

./hundurzek page "$work/page.html"
broken clock 's/"clock C0", 15/"clock C0", 14/'
broken orbit 's/"radial", 15/"radial", 13/; s/"along-track", 13/"along-track", 15/'
broken network 's/"network ID", 5/"network ID", 4/'
$PYTHON -B tests/lib/page.py "$work"
