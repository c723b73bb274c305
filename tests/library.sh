#!/bin/sh
# The library for other processors (library/): x86-64's objects are the kit's own, byte for byte; what each needs from
# outside; Arm's link with firmware of every way to pass numbers with a point; and a module that has something of one
# machine in it is refused, each kind, before any library is made.
set -eu
cd "$(dirname "$0")/.."
. tests/lib/tools.sh
. tests/lib/processors.sh
. tests/lib/judge.sh
work=$(mktemp -d)
trap 'rm -rf "$work"' EXIT

./hundurzek library "$work/all" --target all >"$work/said"
cat "$work/said"

# ---- x86-64: the kit's own command, with the kit itself

need ar binutils
mkdir "$work/own" "$work/ours"
for crate in host host_write; do
    for_c $crate >/dev/null 2>&1
    (cd "$work/own" && ar x "$OLDPWD/target/staticlib/lib$crate.a" && mv "${crate}_c.o" $crate.o)
done
(cd "$work/ours" && ar x "$work/all/x86_64/libhundurzek.a")
if [ "$(ls "$work/own" | tr '\n' ' ')" = 'host.o host_write.o ' ] && diff -r "$work/own" "$work/ours"; then
    judge "x86_64" yes
else
    judge "x86_64 is not rt lib's" no
fi

# ---- what is there, and what is needed

# needs NAME FILES WORD..: its files, and that it needs these alone
needs() {
    name=$1
    files=$2
    shift 2
    if [ "$(echo $(ls "$work/all/$name"))" = "$files" ]; then judge files yes; else judge "files of $name" no; fi
    if grep -qx "$name: [1-9][0-9]* bytes of text, needs $*" "$work/said"; then
        judge needs yes
    else
        judge "what $name needs" no
    fi
}

plain='hundurzek.h hundurzek.pc libhundurzek.a'
arm='__aeabi_memclr __aeabi_memclr4 __aeabi_memclr8 __aeabi_memcpy __aeabi_memcpy4 __aeabi_uldivmod'
needs x86_64 "$plain" memcpy
needs aarch64 "$plain" memcpy
needs armv7a "$plain" memcpy memset
needs thumbv7em "$plain" $arm
needs thumbv7em-strict "$plain" $arm
needs riscv64 "$plain" memcpy memset
needs riscv32 "$plain" memcpy memset
needs wasm32 'hundurzek.h hundurzek.js hundurzek.pc hundurzek.wasm libhundurzek.a package.json' nothing

# ---- Arm's, in firmware that passes numbers with a point in each way

tools_for thumbv7em
tools_for armv7a
cat >"$work/unit.c" <<'END_OF_C'
#include "hundurzek.h"
static uint8_t holding[HUNDURZEK_HOLDING];
float half(float x) { return x / 2; }
int main(void) { return (int)(half(2) * (float)hundurzek_empty(holding, HUNDURZEK_HOLDING)); }
END_OF_C

# links NAME FLAG..: a program of that processor, compiled so
links() {
    name=$1
    shift
    processor "$name"
    if $CC $FLAGS "$@" "-I$work/all/$name" "$work/unit.c" "$work/all/$name/libhundurzek.a" -o "$work/unit"; then
        judge links yes
    else
        judge "$name with $*" no
    fi
}

for name in thumbv7em thumbv7em-strict; do
    links $name -mfloat-abi=soft
    links $name -mfloat-abi=softfp -mfpu=fpv4-sp-d16
    links $name -mfloat-abi=hard -mfpu=fpv4-sp-d16
done
links armv7a -mfloat-abi=hard

# ---- modules that are not for every machine, in a folder that has the scripts and such a module

mkdir -p "$work/clone/crates" "$work/clone/target/module"
cp -R hundurzek include library "$work/clone/"
: >"$work/clone/crates.txt"

# refused WHAT FROM TO: the library is not made of a module in which the first line that matches was changed so
refused() {
    for crate in host host_write; do cp "target/module/$crate.ll" "$work/clone/target/module/"; done
    awk -v from="$2" -v to="$3" '!done && $0 ~ from { done = sub(from, to) } { print }' target/module/host_write.ll \
        >"$work/clone/target/module/host_write.ll"
    if cmp -s target/module/host_write.ll "$work/clone/target/module/host_write.ll"; then judge "no such line: $2" no; fi
    rm -rf "$work/made"
    if "$work/clone/hundurzek" library "$work/made" --target aarch64 >"$work/out" 2>"$work/err" ||
        [ -s "$work/out" ] || [ -n "$(ls "$work/made")" ] ||
        ! grep -q "^hundurzek: the module of crate host_write, line [0-9]*: .*$1" "$work/err"; then
        judge "not refused: $1, $3" no
        cat "$work/err"
    else
        judge refused yes
    fi
}

refused 'another layout' 'i64:64' 'i64:32'
refused 'another triple' 'x86_64-unknown' 'x86_64-apple'
refused 'the word ptrtoint' 'load i64, ptr' 'ptrtoint i64, ptr'
refused 'the word inttoptr' 'zext i1' 'inttoptr i64'
refused 'the word asm' 'call void' 'call void asm'
refused 'a text' '^target triple.*' '&\nmodule asm "nop"'
refused 'the word sret' 'ptr noundef %a0' 'ptr noundef sret(i64) %a0'
refused 'the word byval' 'ptr noundef %a0' 'ptr noundef byval(i64) %a0'
refused 'a text' 'attributes #0 = [{]' '& "target-features"="+avx2"'
refused 'a text' '"target-cpu"="x86-64"' '"target-cpu"="znver4"'
refused 'a text' '"probe-stack"="inline-asm"' '"probe-stack"="__probe"'
refused 'a text' '"stack-probe-size"="3072"' '"stack-probe-size"="4096"'
refused 'the word i128' 'alloca i64' 'alloca i128'
refused 'the word double' 'alloca i64' 'alloca double'
refused 'a text, a struct or a vector' 'alloca i64' 'alloca <2 x i64>'
refused 'a text, a struct or a vector' 'alloca i64' 'alloca { i64, ptr }'
refused 'a text, a struct or a vector' '^define internal noundef i64' 'define internal { i64, ptr }'
refused 'a text, a struct or a vector' 'alloca i64' 'alloca { i64, i64 }'
refused 'a text, a struct or a vector' 'store i64' 'store { i64, i64 }'
refused 'a text, a struct or a vector' 'store i64' 'store { i8, ptr }'
refused 'the word ptrtoaddr' 'load i64, ptr' 'ptrtoaddr i64, ptr'
refused 'a text' '^target triple.*' '&\n@kept = private unnamed_addr constant [2 x i8] c"ab", align 1'
refused 'the word addrspace' 'alloca i64' 'alloca ptr addrspace(1)'
refused 'the word atomic' 'load i64' 'load atomic i64'
refused 'a step of other than bytes' 'getelementptr i8' 'getelementptr ptr'
refused 'declares llvm.x86.rdtsc' '^declare void @llvm.trap[(][)]' 'declare i64 @llvm.x86.rdtsc()'
refused 'declares getenv' '^declare void @llvm.trap[(][)]' 'declare ptr @getenv(ptr)'

echo "$passed passed, $failed failed"
[ "$failed" -eq 0 ]
