#!/bin/sh
# tests/processors.sh [--all] [NAME ..]: the library of each processor of library/targets but x86-64, or of those named,
# against the second program, on an emulator: readings, walks, writes, saved lines and lines of the listing's input, by
# the programs that compare x86-64's. A third of their random cases: at least 100,000 readings, 20,000 walks and 100,000
# writes each; with --all, all of them.
set -eu
cd "$(dirname "$0")/.."
. tests/lib/tools.sh
. tests/lib/processors.sh
part=3
if [ "${1:-}" = --all ]; then
    part=1
    shift
fi
names=${*:-$(awk '!/^#/ && $1 != "x86_64" { print $1 }' library/targets)}
made=target/tests/processors
second
for name in $names; do
    tools_for "$name"
    mkdir -p "$made/$name"
    ./hundurzek library "$made/$name" --target "$name"
    echo '0 passed, 1 failed' >"$made/$name/said"
done

# two at a time
echo $names | tr ' ' '\n' |
    xargs -P 2 -I NAME sh -c 'tests/lib/processor.sh "$1" "$2" >"$3/$1/said" 2>&1' - NAME $part $made || true
for name in $names; do cat "$made/$name/said"; done
for name in $names; do tail -n 1 "$made/$name/said"; done | awk '
    NF != 4 || $2 != "passed," || $4 != "failed" { $1 = 0; $3 = 1 }
    { passed += $1; failed += $3 }
    END {
        printf "%d passed, %d failed\n", passed, failed
        exit failed > 0
    }'
