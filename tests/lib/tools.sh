# Sourced by the test and bench scripts, in the repository's root: what compiles and runs a program here.
#   CC    compiles C
#   FLAGS go with every C source
#   RUN   goes in front of such a program: nothing, but an emulator where tests/lib/processors.sh sets it
# need COMMAND PACKAGE..: installs Debian's packages where the command is missing.
# archive CRATE: makes its archive for C, target/staticlib/libCRATE.a, where there is none since the last change; for host
# the writer's, too.
# archives CRATE: what a program over it links.
# compile NAME CRATE SOURCE..: makes target/tests/NAME of tests/NAME.c, further sources and the crate's archive.
# second: makes the second program, target/tests/second.
# comparing NAME: the sources of tests/NAME.c, which compares with the second program, all of them.
# streams NAME: those of the second program that it compares (second/README.md, emit), one to a line.
# emit PART: the streams that come as such lines; of random ones the PART-th part of their cases.
# agree NAME [WORD ..]: runs it over crate host, on this machine, on all of its streams; the words, flags and further
# sources, go to the compiler.
. library/kit.sh

need() {
    command -v "$1" >/dev/null 2>&1 && return 0
    shift
    if [ -z "${tools_updated:-}" ]; then
        apt-get update -qq >/dev/null 2>&1 || true
        tools_updated=yes
    fi
    DEBIAN_FRONTEND=noninteractive apt-get install -y -qq --no-install-recommends "$@" >/dev/null 2>&1
}

FLAGS='-O2 -std=c11 -Wall -Wextra -Werror'
need gcc gcc libc6-dev
CC='gcc'
RUN=''

archive() {
    if outdated "target/staticlib/lib$1.a"; then
        for_c "$1"
    fi
    [ "$1" != host ] || archive host_write
}

# For C the writer has an archive of its own beside the reader's.
archives() {
    echo "target/staticlib/lib$1.a"
    [ "$1" != host ] || echo target/staticlib/libhost_write.a
}

compile() {
    program=$1
    crate=$2
    shift 2
    archive "$crate"
    mkdir -p target/tests
    $CC $FLAGS -Iinclude -Itests/lib "tests/$program.c" "$@" \
        $(archives "$crate") -o "target/tests/$program"
}

second() {
    need rustc rustc
    mkdir -p target/tests
    rustc -O --edition 2021 -D warnings second/main.rs -o target/tests/second
}

comparing() {
    echo "tests/$1.c"
    for file in offsets streams lending changed families missing readings refused texts writes; do
        echo "tests/lib/$file.c"
    done
}

streams() {
    case $1 in
    read) printf '%s\n' fixed 'read 1 300000' 'stretch 1 22000' ;;
    walk) printf '%s\n' bench 'walk 1 60000' ;;
    write) printf '%s\n' 'sweep write' 'write 1 300000' 'rounds 1 100000' ;;
    saved) printf '%s\n' 'sweep save' 'save 1 150000' 'sweep load' 'load 1 150000' ;;
    line) printf '%s\n' 'sweep line' 'line 1 150000' ;;
    esac
}

emit() {
    while read -r kind of cases; do
        target/tests/second emit "$kind" $of ${cases:+$(((cases + $1 - 1) / $1))}
    done
}

agree() {
    program=$1
    shift
    second
    archive host
    $CC $FLAGS -Iinclude -Itests/lib $(comparing "$program") "$@" $(archives host) -o "target/tests/$program"
    streams "$program" | emit 1 2>"target/tests/$program.log" | $RUN "target/tests/$program"
}
