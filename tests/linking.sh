#!/bin/sh
# README.md, "Linking it into a C program": its lines, pasted in a folder outside the repository, print document 01's
# worked listing; so do the flags that it names for a machine without pkg-config. And hundurzek.pc, as pkg-config sees
# it.
set -eu
cd "$(dirname "$0")/.."
. tests/lib/tools.sh
. tests/lib/judge.sh
need cc gcc libc6-dev
need pkg-config pkg-config
home=$PWD
work=$(mktemp -d)
trap 'rm -rf "$work"' EXIT
# The section's text, and the lines of it to be pasted.
section() { sed -n '/^## Linking it into a C program$/,/^## /p' README.md; }
section | sed -n 's/^    //p' >"$work/lines"

# lists WHAT LINES: whether a shell in a fresh folder, with these lines pasted, prints what it says of the library, the
# worked listing and no more
lists() {
    rm -rf "$work/own folder"
    mkdir "$work/own folder"
    (cd "$work/own folder" && HUNDURZEK=$home sh -eu "$2") >"$work/got" || echo "status $?" >>"$work/got"
    if sed 1d "$work/got" | diff crates/listing/stdout - && sed -n 1p "$work/got" | grep -q ' bytes of text, needs '; then
        judge "$1" yes
    else
        judge "$1" no
    fi
}

lists 'the lines of README.md' "$work/lines"
plain=$(section | sed -n 's/.*Without pkg-config the flags are `\([^`]*\)`.*/\1/p')
sed "s/\$([^)]*pkg-config[^)]*)/$plain/" "$work/lines" >"$work/plain"
if grep -q pkg-config "$work/plain"; then judge 'pkg-config is not done without' no; fi
lists 'the flags without pkg-config' "$work/plain"

# ---- hundurzek.pc, in a folder with a blank, where it was put and where it was moved to

# says WHAT WANT ARGUMENT..: what pkg-config prints of it, without a complaint
says() {
    what=$1
    want=$2
    shift 2
    got=$( (PKG_CONFIG_PATH=$folder pkg-config "$@" hundurzek || echo "status $?") 2>&1 | sed 's/ *$//')
    if [ "$got" = "$want" ]; then judge "$what" yes; else judge "$what: $got" no; fi
}

./hundurzek library "$work/a folder" >/dev/null
for folder in "$work/a folder" "$work/moved folder"; do
    [ -d "$folder" ] || mv "$work/a folder" "$folder"
    escaped=$(printf '%s' "$folder" | sed 's/ /\\ /g')
    says 'hundurzek.pc' '' --validate --print-errors
    says 'the flags to compile' "-I$escaped" --cflags
    says 'the flags to link' "-L$escaped -lhundurzek" --libs
    says 'a version' 0 --modversion
    if [ "$(ls "$folder")" = "$(printf 'hundurzek.h\nhundurzek.pc\nlibhundurzek.a')" ]; then
        judge 'the files' yes
    else
        judge "the files in $folder" no
    fi
done

echo "$passed passed, $failed failed"
[ "$failed" -eq 0 ]
