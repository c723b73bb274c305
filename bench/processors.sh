#!/bin/sh
# bench/processors.sh: the library on each processor of library/targets: its size, its instructions a bit
# (bench/rounds.c), and the deepest stack of each function, as the machine code shows it for every input
# (bench/lib/stacks.py) and, where Linux's programs can be emulated, as painting shows it (bench/painted.c); as the
# tables of docs/PERFORMANCE.md. Fails where x86-64's instructions are not those that the file has, where its stack is
# not what bench/lib/frames.py says, where a processor reads something else than x86-64, and where painting shows a
# deeper stack than the machine code.
set -eu
cd "$(dirname "$0")/.."
. bench/lib/measure.sh
. tests/lib/processors.sh
need python3 python3

FUNCTIONS='empty read walk write save load line'
LINUX='x86_64 aarch64 armv7a riscv64'
ALL=$(awk '!/^#/ { print $1 }' library/targets)
work=target/bench/processors

# ---- programs for a processor

# program NAME PROGRAM WORD..: makes it of C sources (flags too) and the processor's library
program() {
    processor "$1"
    own=$work/$1
    made=$own/$2
    shift 2
    $CC $FLAGS -Iinclude "$@" "$own/libhundurzek.a" -o "$made"
}

# emulate NAME PROGRAM WORD..: runs it, with these words for the emulator
emulate() {
    processor "$1"
    made=$work/$1/$2
    emulator=${RUN%% *}
    shift 2
    $emulator "$@" ${RUN#"$emulator"} "$made" </dev/null
}

# ---- instructions

# counted NAME WAY: how many instructions bench/rounds.c takes so; what it prints must be the same everywhere. What a
# bare program prints comes on standard error.
counted() {
    program "$1" rounds -DWAY="$2" bench/rounds.c bench/stretches.c bench/encode.c
    ended=0
    emulate "$1" rounds -plugin target/bench/icount.so -d plugin -D $work/counted >$work/printed 2>&1 || ended=$?
    [ -f $work/totals ] || cp $work/printed $work/totals
    if [ $ended -ne 0 ] || ! cmp -s $work/printed $work/totals; then
        echo "$1: status $ended, $(cat $work/printed); $(cat $work/totals) before" >&2
        exit 1
    fi
    grep -x '[0-9][0-9]*' $work/counted
}

# per_bit NAME: by walks, messages and writes
per_bit() {
    nothing=$(counted "$1" NOTHING)
    walks=$(counted "$1" WALKS)
    messages=$(counted "$1" MESSAGES)
    writes=$(counted "$1" WRITES)
    awk -v none="$nothing" -v walks="$walks" -v messages="$messages" -v writes="$writes" '{
        printf "%.2f %.2f %.2f\n", (walks - none) / $4, (messages - none) / $4, (writes - none) / $3
    }' $work/totals
}

# documented: the same for x86-64, as docs/PERFORMANCE.md has it
documented() {
    for way in walks messages writes; do
        awk -F ' *[|] *' -v head="by $way" '$2 == head { found = 1 } found && $2 == "(a)" { print $3; exit }' \
            docs/PERFORMANCE.md
    done
}

# size_row NAME [WALKS MESSAGES WRITES]
size_row() {
    said=$(sed -n "s/^$1: \([0-9]*\) bytes of text, needs \(.*\)/\1 | \2/p" $work/said)
    echo "| $1 | $said | ${2:--} | ${3:--} | ${4:--} |"
}

# ---- stacks

# code FILE..: what is in them, by whatever name
code() {
    llvm llvm-objdump -dr --no-show-raw-insn "$@" | sed '/file format/s/^.*:/:/'
}

# tell NAME: makes NAME/told, a line for each function (bench/lib/stacks.py). The library does not say how large frames
# are: its modules are compiled again as library/make.sh does it, so that they do, and must be the same code.
tell() {
    own=$work/$1
    for part in host host_write; do
        "$clang" $(words "$1") $AS_RATTLE -fstack-size-section "target/library/$1/$part.ll" -o "$own/$part.o"
    done
    code "$own/libhundurzek.a" >"$own/listing"
    code "$own/host.o" "$own/host_write.o" | cmp - "$own/listing" >&2
    llvm llvm-readelf --stack-sizes "$own/host.o" "$own/host_write.o" >"$own/sizes"
    python3 bench/lib/stacks.py "$own/listing" "$own/sizes" >"$own/told"
}

# what bench/lib/frames.py tells of the same library by every way through its code
told_by_frames() (
    archives() { echo $work/x86_64/libhundurzek.a; }
    frames | awk -F ' *[|] *' '{ print $2, $3 }'
)

# paint NAME: makes NAME/painted, a line for each function
paint() {
    program "$1" paint bench/painted.c bench/stretches.c bench/encode.c
    emulate "$1" paint >"$work/$1/painted"
    awk -v name="$1" 'NR == FNR { told[$1] = $2; next }
        !($1 in told) || $2 > told[$1] { print name ": " $0 " bytes painted, told " told[$1] >"/dev/stderr"; bad = 1 }
        END { exit bad }' "$work/$1/told" "$work/$1/painted"
}

# table WHAT..: the head of one, with these columns before the functions
table() {
    echo
    for column in "$@" $FUNCTIONS; do printf '| %s ' "$column"; done
    echo '|'
    for column in "$@" $FUNCTIONS; do printf '|---'; done
    echo '|'
}

# stack_row NAME FILE: the bytes of each function
stack_row() {
    printf '| %s |' "$1"
    for function in $FUNCTIONS; do
        awk -v name="hundurzek_$function" '$1 == name { printf " %d |", $2 }' "$work/$1/$2"
    done
    echo
}

# outside_rows NAME: for each function from outside, how many bytes are taken where it begins
outside_rows() {
    for other in $(tr ' ' '\n' <"$work/$1/told" | sed -n 's/:.*//p' | sort -u); do
        printf '| %s | %s |' "$1" "$other"
        for function in $FUNCTIONS; do
            bytes=$(sed -n "s/^hundurzek_$function .* $other:\([0-9]*\).*/\1/p" "$work/$1/told")
            printf ' %s |' "${bytes:--}"
        done
        echo
    done
}

# ---- the tables

for name in $ALL; do tools_for "$name"; done
rm -rf $work
mkdir -p $work
./hundurzek library $work --target all >$work/said

echo '| processor | text, bytes | needs | by walks, per bit | by messages | by writes |'
echo '|---|---|---|---|---|---|'
for name in $ALL; do
    case $name in
    wasm32) numbers= ;;
    *) numbers=$(per_bit "$name") ;;
    esac
    if [ "$name" = x86_64 ] && [ "$numbers" != "$(echo $(documented))" ]; then
        echo "x86_64: $numbers, and in docs/PERFORMANCE.md" $(documented) >&2
        exit 1
    fi
    size_row "$name" $numbers
done

for name in $ALL; do
    tell "$name"
done
told_by_frames >$work/frames
awk '{ print $1, $2 }' $work/x86_64/told | diff $work/frames - >&2

table 'deepest stack, bytes'
for name in $ALL; do
    stack_row "$name" told
done
table 'painted, bytes'
for name in $LINUX; do
    paint "$name"
    stack_row "$name" painted
done
table 'bytes taken' 'where this begins'
for name in $ALL; do
    outside_rows "$name"
done
