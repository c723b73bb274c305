#!/bin/sh
# page/make.sh OUT.html FOLDER: the bench page as one file: index.html with its style, the WebAssembly module of FOLDER
# (hundurzek.wasm), the training cases, and its modules one after another in place of the lines that name them.
set -eu
out=$(readlink -f "$1")
folder=$(readlink -f "$2")
cd "$(dirname "$0")/.."

# Modules in an order in which each comes after what it imports; in one script they need neither imports nor exports.
MODULES='library/hundurzek.js page/elements.js page/stretch.js page/mask.js page/words.js page/layout.js
page/reading.js page/listing.js page/agreement.js page/band.js page/grid.js page/drawing.js page/page.js'

script() {
    awk '/^import / { inside = 1 }
        inside { if (/;$/) inside = 0; next }
        { sub(/^export /, ""); print }' $MODULES
}

module() {
    base64 -w 0 "$folder/hundurzek.wasm"
}

# Each file of training/*/ that is lines of the listing, in base 64: bad lines may have any byte.
cases() {
    comma='{'
    for file in training/*/*.txt; do
        name=${file#training/}
        printf '%s\n"%s": "%s"' "$comma" "${name%.txt}" "$(base64 -w 0 <"$file")"
        comma=','
    done
    echo '}'
}

while IFS= read -r line; do
    case $line in
    '<!-- style -->') printf '<style>\n%s\n</style>\n' "$(cat page/style.css)" ;;
    '<!-- module -->') printf '<script type="text/plain" id="module">%s</script>\n' "$(module)" ;;
    '<!-- cases -->') printf '<script type="application/json" id="cases">%s</script>\n' "$(cases)" ;;
    '<!-- script -->') printf '<script type="module">\n%s\n</script>\n' "$(script)" ;;
    *) printf '%s\n' "$line" ;;
    esac
done <page/index.html >"$out"
