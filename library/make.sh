#!/bin/sh
# library/make.sh FOLDER NAME: puts the library for a processor of library/targets into a folder, with the header and what
# pkg-config reads, from the modules that library/module.sh kept; prints its text size and what it needs from outside. Of
# wasm32 also the linked module, which a browser loads, and hundurzek.js, which offers its functions there and in node.
set -eu
folder=$(readlink -f "$1")
name=$2
cd "$(dirname "$0")/.."
. library/kit.sh
words=$(words "$name")
work=target/library/$name
rm -rf "$work"
mkdir -p "$work"

# What clang itself says of this processor, for an empty program in C.
: >"$work/empty.c"
"$clang" $words -S -emit-llvm "$work/empty.c" -o "$work/empty.ll"
layout=$(grep '^target datalayout = ' "$work/empty.ll")
triple=$(grep '^target triple = ' "$work/empty.ll")

# No function passes a number with a point, so firmware of every way to pass one can link an Arm's (Arm's "Addenda to
# the ABI", Tag_ABI_VFP_args).
case $name in
arm* | thumb*) also='module asm ".eabi_attribute 28, 3"' ;;
*) also= ;;
esac

for part in host host_write; do
    awk -v crate=$part -v layout="$layout" -v triple="$triple" -v also="$also" \
        -f library/retarget.awk "target/module/$part.ll" >"$work/$part.ll"
    "$clang" $words $AS_RATTLE "$work/$part.ll" -o "$work/$part.o"
done

cp include/hundurzek.h "$folder/"
# The folder may be moved: pkg-config's ${pcfiledir} is where the file lies.
cat >"$folder/hundurzek.pc" <<'END_OF_PC'
Name: hundurzek
Description: proved reader and writer for QZSS CLAS Compact SSR messages
Version: 0
Libs: -L${pcfiledir} -lhundurzek
Cflags: -I${pcfiledir}
END_OF_PC
rm -f "$folder/libhundurzek.a"
llvm llvm-ar rcsD "$folder/libhundurzek.a" "$work/host.o" "$work/host_write.o"
made=$folder/libhundurzek.a
if [ "$name" = wasm32 ]; then
    made=$folder/hundurzek.wasm
    functions=$(llvm llvm-nm --defined-only --extern-only --just-symbol-name "$work/host.o" "$work/host_write.o" |
        sed -n 's/^hundurzek_/--export=&/p')
    # the stack lies first in memory, so that one that is too deep stops and overwrites nothing
    llvm wasm-ld --no-entry --stack-first --strip-all $functions --export=__heap_base \
        "$work/host.o" "$work/host_write.o" -o "$made"
    # package.json: without it node takes a .js file for no module
    cp library/hundurzek.js library/package.json "$folder/"
fi
text=$(llvm llvm-size "$made" | awk 'NR > 1 { text += $1 } END { print text }')
# (of a linked module the kit's llvm-nm makes a fault; what is not defined in it is imported)
case $made in
*.wasm) needs=$(llvm llvm-objdump --section-headers "$made" | awk '$2 == "IMPORT" { print "imports" }') ;;
*) needs=$(llvm llvm-nm --undefined-only --just-symbol-name "$made" | sed -n '/^[A-Za-z_][A-Za-z0-9_]*$/p' | sort -u) ;;
esac
echo "$name: $text bytes of text, needs $(echo ${needs:-nothing})"
