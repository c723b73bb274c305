#!/bin/sh
# tests/lib/processor.sh NAME PART: the library for one processor, in target/tests/processors/NAME, against the second
# program: the programs of tests/, on the PART-th part of their streams. Prints how many calls of each passed, and in all;
# of a program that failed, or did not come to its end, as after a fault, what it said.
set -eu
cd "$(dirname "$0")/../.."
. tests/lib/tools.sh
. tests/lib/processors.sh
name=$1
part=$2
made=target/tests/processors/$name
PROGRAMS='read walk write saved line'
PATIENCE=3000
passed=0
failed=0

# compared PROGRAM: tests/PROGRAM.c on that processor
compared() {
    $CC $FLAGS "-DPART=$part" "-I$made" -Itests/lib $(comparing "$1") "$made/libhundurzek.a" -o "$made/$1"
    streams "$1" | emit "$part" 2>/dev/null | timeout $PATIENCE $RUN "$made/$1"
}

# replayed: the linked module, through hundurzek.js; single changes of a write, and rounds, are for C
replayed() {
    for program in $PROGRAMS; do streams "$program"; done | grep -v '^sweep write$\|^rounds ' |
        emit "$part" 2>/dev/null | timeout $PATIENCE node tests/lib/replay.mjs "$made/hundurzek.js"
}

# counted WHAT COMMAND..: runs it, and adds up its last line
counted() {
    what=$1
    log=$made/$what.log
    shift
    status=0
    ("$@") >"$log" 2>&1 || status=$?
    line=$(tail -n 1 "$log" | grep -x '[1-9][0-9]* passed, [0-9]* failed') || line='0 passed, 1 failed'
    bad=${line#* passed, }
    bad=${bad% failed}
    [ "$status" -eq 0 ] || [ "$bad" -gt 0 ] || bad=1
    [ "$bad" -eq 0 ] || {
        echo "status $status"
        head -n 30 "$log"
        grep '^too few' "$log" || true
    }
    echo "$name, $what: ${line%% *} passed, $bad failed"
    passed=$((passed + ${line%% *}))
    failed=$((failed + bad))
}

if [ "$name" = wasm32 ]; then
    counted replay replayed
    counted module node tests/lib/module.mjs "$made"
else
    processor "$name"
    for program in $PROGRAMS; do counted "$program" compared "$program"; done
fi
echo "$passed passed, $failed failed"
[ "$failed" -eq 0 ]
