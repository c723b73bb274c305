#!/bin/sh
# library/module.sh CRATE: proves and makes a crate's archive for C as `rt lib` does, and keeps what that compiles:
# LLVM's module, as text, in target/module/CRATE.ll. It is rt's own command, in a kit of links to the kit, whose clang
# keeps the module.
set -eu
cd "$(dirname "$0")/.."
. library/kit.sh
crate=$1
kept=$PWD/target/module/$crate.bc
own=$(mktemp -d)
trap 'rm -rf "$own"' EXIT
rm -f "$kept"
mkdir -p target/module
keeping "$own/kit" "$kept"
for_c "$crate" "$own/kit/bin/rt"
[ -f "$kept" ] || {
    echo "rt lib of crate ${crate}_c compiled no module"
    exit 1
}
as_text "$kept" "target/module/$crate.ll"
