# Sourced after tools.sh by what makes or tests training/ and vectors/: files NAME.txt, lines of the listing's input,
# each beside NAME.listing, the listing expected of it.
# programs: the programs under comparison, a command a line: lines on standard input, the listing on standard output. A
# program joins by a line here (one for x86-64 with $RUN in front).
# remake FOLDER TO: FOLDER/make.py writes the NAME.txt into TO; the second program's listing goes beside each.
# judge FOLDER: remakes it aside, and tests/lib/FOLDER.py compares it with that and with the programs.
programs() {
    echo 'target/tests/second listing'
    echo './hundurzek list -'
}

remake() {
    need python3 python3
    second
    PYTHONPATH=tests/lib python3 -B "$1/make.py" "$2"
    find "$2" -name '*.txt' | while read -r lines; do
        target/tests/second listing <"$lines" >"${lines%.txt}.listing"
    done
}

judge() {
    rm -rf "target/tests/$1"
    mkdir -p "target/tests/$1"
    remake "$1" "target/tests/$1"
    programs | PYTHONPATH=vectors python3 -B "tests/lib/$1.py"
}
