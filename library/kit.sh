# Sourced in the repository's root: the Rattle kit, found through rt, and its LLVM.
#   kit          its folder
#   clang        the kit's compiler
#   AS_RATTLE    what rattle tells it of every module
#   words NAME   what it is told of a processor of library/targets
#   llvm NAME WORD..       runs it under another name that it answers to: llvm-ar, llvm-nm, llvm-size, wasm-ld
#   outdated MADE          whether a file is not there, or older than the code
#   for_c CRATE [RT]       proves crate CRATE_c, what C calls of CRATE, by `rt lib`, or by that of another kit, and makes
#                          its archive, target/staticlib/libCRATE.a
#   keeping FOLDER KEPT    makes FOLDER a kit of links to the kit, but for its clang: a script that keeps in KEPT the
#                          module that it optimizes, and does what it is told. The path is written into it: rattle hands
#                          no environment on. FOLDER lies outside the repository, below which `rt ci` refuses links
#   as_text MODULE TEXT    a module as text, as it is
kit=$(dirname "$(dirname "$(readlink -f "$(command -v rt)")")")
clang=$kit/toolchain/bin/clang
AS_RATTLE='-mllvm -no-trap-after-noreturn -ffunction-sections -fdata-sections -mllvm -trap-unreachable
-mllvm -no-x86-call-frame-opt -mllvm -disable-machine-licm -mllvm -disable-postra-machine-licm
-mllvm -sink-common-insts=false --no-default-config -no-canonical-prefixes -fintegrated-cc1 -fno-crash-diagnostics
-Werror -c -x ir -O3'

words() {
    awk -v name="$1" '$1 == name { sub(/^[^ ]+ +/, ""); print }' library/targets
}

llvm() {
    python3 -c 'import os, sys; os.execv(sys.argv[1], sys.argv[2:])' "$clang" "$@"
}

outdated() {
    [ ! -f "$1" ] || [ -n "$(find crates.txt -newer "$1")" ] ||
        [ -n "$(find crates -mindepth 2 -name out -prune -o -newer "$1" -print | head -n 1)" ]
}

# For every x86-64 that there is, as what is compiled for other processors; rt's own choice is x86-64-v2.
for_c() {
    (cd "crates/$1_c" && "${2:-rt}" lib --cpu=x86-64) || return 1
    mkdir -p target/staticlib
    cp "crates/$1_c/out/lib$1_c.a" "target/staticlib/lib$1.a"
}

# links FROM TO EXCEPT..: links in TO to all that is in FROM but these
links() {
    from=$1
    to=$2
    shift 2
    mkdir -p "$to"
    for file in "$from"/*; do
        case " $* " in
        *" $(basename "$file") "*) ;;
        *) ln -s "$file" "$to/" ;;
        esac
    done
}

# rt takes for its kit where it lies itself, links followed: so it is copied.
keeping() {
    links "$kit" "$1" bin toolchain
    links "$kit/bin" "$1/bin" rt rtlib.py
    cp "$kit/bin/rt" "$kit/bin/rtlib.py" "$1/bin/"
    links "$kit/toolchain" "$1/toolchain" bin
    links "$kit/toolchain/bin" "$1/toolchain/bin" clang
    cat >"$1/toolchain/bin/clang" <<END_OF_CLANG
#!/bin/sh
case " \$* " in
*' -O3 '*)
    for word; do
        case \$word in *.bc) cp "\$word" "$2" ;; esac
    done
    ;;
esac
exec "$clang" "\$@"
END_OF_CLANG
    chmod +x "$1/toolchain/bin/clang"
}

as_text() {
    "$clang" --target=x86_64-unknown-linux-gnu -x ir -S -emit-llvm -Xclang -disable-llvm-passes "$1" -o "$2"
}
