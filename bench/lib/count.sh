# Sourced in the repository's root by what counts instructions.
#   build NAME CRATE WORD..    makes target/bench/NAME of C sources (flags too) and a crate's archive for C
#   count NAME WORD..          runs it with these words: how many instructions it executes up to each mark, and in all
#   marked NAME WORD..         of a program that marks twice, does something, and marks again: how many that takes
#   round NAME WORD..          of a program whose last word is a number of rounds: how many a round takes
#   listed FILE                of the listing program on these lines: how many it executes, its start and end too; the
#                              listing is target/bench/listed
. tests/lib/tools.sh

# The counter is a plugin of the emulator (Debian 12's: Debian 13's takes no plugins).
need qemu-x86_64 qemu-user
need gcc gcc libc6-dev
mkdir -p target/bench
gcc $FLAGS -shared -fPIC bench/lib/icount.c -o target/bench/icount.so

build() {
    program=$1
    crate=$2
    shift 2
    archive "$crate" >/dev/null
    $CC -static $FLAGS -Iinclude "$@" $(archives "$crate") -o "target/bench/$program"
}

count() {
    program=$1
    shift
    qemu-x86_64 -plugin target/bench/icount.so -d plugin -D target/bench/counted "target/bench/$program" "$@"
    grep -x '[0-9][0-9]*' target/bench/counted
}

# the program is linked dynamically, with the kit's C library
listed() {
    libraries=$kit/toolchain/lib
    qemu-x86_64 -plugin target/bench/icount.so -d plugin -D target/bench/counted "$libraries/ld-linux-x86-64.so.2" \
        --library-path "$libraries" target/bin/listing <"$1" >target/bench/listed
    grep -x '[0-9][0-9]*' target/bench/counted
}

marked() {
    count "$@" >target/bench/marks
    awk '{ mark[NR] = $1 } END { print mark[3] - mark[2] - (mark[2] - mark[1]) }' target/bench/marks
}

# what comes before and after the rounds falls out of the difference
round() {
    two=$(count "$@" 2)
    one=$(count "$@" 1)
    echo $((two - one))
}
