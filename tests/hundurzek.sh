#!/bin/sh
# The script ./hundurzek: what each command prints on which output and its status, for good arguments and bad ones, from
# other folders and through links; and, with a kit that only notes its calls, when it builds.
set -eu
cd "$(dirname "$0")/.."
. tests/lib/judge.sh
home=$PWD
work=$(mktemp -d)
trap 'rm -rf "$work"' EXIT

# Document 01's example: its listing, its saved mask; its clock message alone, listed with that mask and without.
listing=crates/listing/stdout
saved=$(printf 'S\t3\t0\tA000000000\t8100\t1\tB')
echo "$saved" >"$work/saved"
sed -n 2p training/06-no-mask/accepted.txt >"$work/clock"
sed -n '3,$p' training/06-no-mask/accepted.listing >"$work/clock.listing"
sed -n 1p training/06-no-mask/accepted.txt >"$work/mask file"
: >"$work/nothing"

# ran COMMAND..: its status is left in $status, what it prints in $work/out and $work/err
ran() {
    status=0
    "$@" >"$work/out" 2>"$work/err" || status=$?
}

# prints FILE COMMAND..: it prints the file and nothing else, with status 0
prints() {
    want=$1
    shift
    ran "$@"
    if [ $status -eq 0 ] && cmp -s "$want" "$work/out" && [ ! -s "$work/err" ]; then
        judge "$*" yes
    else
        judge "status $status: $*" no
        head -n 3 "$work/out" "$work/err"
    fi
}

# refuses STATUS TEXT COMMAND..: it has the status, prints nothing, and says the text on standard error
refuses() {
    want=$1
    text=$2
    shift 2
    ran "$@"
    if [ $status -eq "$want" ] && [ ! -s "$work/out" ] && grep -qF -- "$text" "$work/err"; then
        judge "$*" yes
    else
        judge "status $status: $*" no
        head -n 3 "$work/out" "$work/err"
    fi
}

# misused TEXT COMMAND..: it refuses the arguments so, with the usage below
misused() {
    text=$1
    shift
    refuses 2 "hundurzek: $text" "$@"
    if [ "$(sed 1d "$work/err")" = "$(./hundurzek --help)" ]; then judge "usage" yes; else judge "usage: $*" no; fi
}

# What is missing is built here, so that nothing is said of it below.
./hundurzek list >/dev/null

# ---- good arguments

prints "$listing" ./hundurzek list
prints "$listing" ./hundurzek list crates/listing/stdin
prints "$listing" ./hundurzek list - <crates/listing/stdin
prints "$work/saved" ./hundurzek save
prints "$work/saved" ./hundurzek save - <crates/listing/stdin
prints "$work/nothing" ./hundurzek list "$work/nothing"
printf 'S\t-\n' >"$work/empty"
prints "$work/empty" ./hundurzek save "$work/nothing"

# one behind another, standard input anywhere among them; a name with a blank, one that begins with -
prints training/06-no-mask/accepted.listing ./hundurzek list "$work/mask file" "$work/clock"
prints training/06-no-mask/accepted.listing ./hundurzek list "$work/mask file" - <"$work/clock"
prints training/06-no-mask/accepted.listing ./hundurzek list - "$work/clock" <"$work/mask file"
prints "$work/saved" ./hundurzek save "$work/mask file" "$work/clock"
cp "$work/mask file" "$work/-"
prints training/06-no-mask/accepted.listing env -C "$work" "$home/hundurzek" list ./- clock

# the clock message alone: no mask without --from, rows with it
prints training/06-no-mask/refused.listing ./hundurzek list "$work/clock"
prints "$work/clock.listing" ./hundurzek list --from "$saved" "$work/clock"
prints "$work/clock.listing" ./hundurzek list --from "$(./hundurzek save)" - <"$work/clock"
prints "$work/saved" ./hundurzek save --from "$saved" "$work/clock"
prints training/06-no-mask/refused.listing ./hundurzek list --from "$(cat "$work/empty")" "$work/clock"
prints "$listing" ./hundurzek list --from "$saved"

# a saved mask under whose number the input has another: nothing is held then, and the next one is taken
other=$(printf 'S\t3\t0\tA000000000\t8100\t1\tF')
printf 'E\t13\t0\t0\t0\t-\n' >"$work/changed"
prints "$work/changed" ./hundurzek list --from "$other" "$work/mask file"
prints "$work/empty" ./hundurzek save --from "$other" "$work/mask file"
prints "$work/saved" ./hundurzek save --from "$other" "$work/mask file" "$work/mask file"

./hundurzek --help >"$work/help"
prints "$work/help" ./hundurzek -h
for word in list save library page test --from; do
    if grep -q -- "$word" "$work/help"; then judge "help: $word" yes; else judge "help lacks $word" no; fi
done

# from another folder, through links, with CDPATH
mkdir "$work/a folder"
ln -s "$home/hundurzek" "$work/link"
ln -s ../link "$work/a folder/link to a link"
ln -s "$home" "$work/repository"
prints "$listing" env -C "$work/a folder" "$home/hundurzek" list
prints "$work/clock.listing" env -C "$work" "$home/hundurzek" list --from "$saved" clock
prints "$listing" env -C "$work" ./link list
prints "$listing" env -C / "$work/a folder/link to a link" list
prints "$listing" env -C "$work/repository" ./hundurzek list
prints "$listing" env -C "$work" PATH="$home:$PATH" hundurzek list
prints "$listing" env -C "$work" CDPATH="$work:/" repository/hundurzek list

# ---- bad arguments

misused 'a command is needed' ./hundurzek
misused 'no such command: lists' ./hundurzek lists
misused 'no such command: ' ./hundurzek ''
misused 'no such command: --version' ./hundurzek --version
misused 'no such option: --all' ./hundurzek list --all
misused 'no such option: -x' ./hundurzek save "$work/clock" -x
misused 'no such option: --' ./hundurzek list -- "$work/clock"
misused 'no such option: --from' ./hundurzek list "$work/clock" --from "$saved"
misused '--from needs a saved line' ./hundurzek list --from
misused '--from needs a saved line' ./hundurzek save --from ''
misused 'library needs a folder' ./hundurzek library
misused 'library needs a folder' ./hundurzek library ''
misused "no such option: $work/two" ./hundurzek library "$work/one" "$work/two"
misused 'no such option: -p' ./hundurzek library -p
misused '--target needs a name: x86_64 ' ./hundurzek library "$work/one" --target
misused 'no such target: armv7; there are x86_64 ' ./hundurzek library "$work/one" --target aarch64 armv7
misused 'no such target: all; there are x86_64 ' ./hundurzek library "$work/one" --target aarch64 all
misused 'no such target: aarch.*; there are x86_64 ' ./hundurzek library "$work/one" --target 'aarch.*'
misused 'no such target: ; there are x86_64 ' ./hundurzek library "$work/one" --target ''
misused 'page takes one file' ./hundurzek page "$work/one.html" "$work/two.html"
misused 'no such file: ' ./hundurzek page ''
misused 'no such file: -o' ./hundurzek page -o
misused 'test takes nothing' ./hundurzek test tests/hundurzek.sh

for line in S "$work/saved" "$saved " "$(printf 'S\t-\t')" "$(printf 'S\t3\t0\tA000000000\t8100\t1\tb')" \
    "$(printf 'S\t3\t0\tA000000000\t8100\t1')" 'S 3 0 A000000000 8100 1 B' "$(printf '%s\nS' "$saved")"; do
    refuses 1 'hundurzek: 12: no saved mask' ./hundurzek list --from "$line" "$work/clock"
done
long=$(head -c 100000 /dev/zero | tr '\000' A)
refuses 1 'hundurzek: 12: no saved mask' ./hundurzek save --from "$long" "$work/clock"

refuses 1 "hundurzek: $work/none cannot be read" ./hundurzek list "$work/none"
refuses 1 "hundurzek: $work/none cannot be read" ./hundurzek save "$work/clock" "$work/none"
refuses 1 "hundurzek: $work cannot be read" ./hundurzek list "$work"
refuses 1 'hundurzek:  cannot be read' ./hundurzek list ''
refuses 1 'hundurzek: cat: -' ./hundurzek list - <"$work"
refuses 1 'hundurzek: cat: -' sh -c './hundurzek list - <&-'
refuses 1 'hundurzek: cat: /proc/self/mem' ./hundurzek list /proc/self/mem "$work/nothing"
refuses 1 'hundurzek: listing' sh -c './hundurzek list >/dev/full'
refuses 1 'hundurzek: listing' sh -c './hundurzek save >/dev/full'
refuses 1 'clock' ./hundurzek library "$work/clock"

# ---- building, in a folder that has the scripts alone, with a kit that notes its calls and does what $work/does says;
# its compiler is the real one

./hundurzek library "$work/real" >/dev/null 2>&1
mkdir -p "$work/clone/crates/host_c" "$work/clone/crates/host_write_c" "$work/clone/crates/listing" "$work/kit/bin"
cp -R hundurzek include library "$work/clone/"
: >"$work/clone/crates.txt"
: >"$work/calls"
ln -s "$(dirname "$(dirname "$(readlink -f "$(command -v rt)")")")/toolchain" "$work/kit/toolchain"
printf '#!/bin/sh\necho "$*: ${PWD##*/}" >>"%s/calls"\n. "%s/does"\n' "$work" "$work" >"$work/kit/bin/rt"
chmod +x "$work/kit/bin/rt"
: >"$work/kit/bin/rtlib.py"
clone() { PATH=$work/kit/bin:$PATH "$work/clone/hundurzek" "$@"; }

# called TIMES: the kit, so far
called() {
    times=$(grep -c '^lib --cpu=x86-64: host_c$' "$work/calls" || true)
    if [ "$times" -eq "$1" ]; then judge built yes; else judge "built $times times, not $1" no; fi
}

# puts DIR: this machine's library is put there, the very one
puts() {
    ran clone library "$1"
    if [ $status -eq 0 ] && [ "$(wc -l <"$work/out")" -eq 1 ] && diff -r "$work/real" "$1"; then
        judge "library" yes
    else
        judge "status $status: library $1" no
    fi
}

mkdir "$work/few"
for tool in cat dirname readlink; do
    ln -s "$(command -v $tool)" "$work/few/$tool"
done
refuses 1 'hundurzek: the Rattle kit is needed' env PATH="$work/few" "$work/clone/hundurzek" list
echo 'echo bad news; exit 1' >"$work/does"
refuses 1 'hundurzek: it failed' clone library "$work/library"
if grep -q '^bad news$' "$work/err"; then judge 'what failed' yes; else judge 'what failed is not told' no; fi
echo 'exit 0' >"$work/does"
refuses 1 "cannot stat 'crates/host_c/out/libhost_c.a'" clone library "$work/library"
echo 'mkdir -p out; : >"out/lib${PWD##*/}.a"' >"$work/does"
refuses 1 'rt lib of crate host_c compiled no module' clone library "$work/library"
refuses 1 'hundurzek: it failed' clone list
called 3
# as rattle compiles what it has proved
cat >"$work/does" <<END
mkdir -p out
crate=\${PWD##*/}
: >"out/lib\$crate.a"
cd "$work"
cp "$home/target/module/\${crate%_c}.bc" module.bc
"\$(dirname "\$0")/../toolchain/bin/clang" -O3 -x ir -c module.bc -o module.o
END
puts "$work/library"
called 4
puts "$work/deep/er library"
called 4
touch -d '1 minute' "$work/clone/crates.txt"
puts "$work/library"
called 5

# a build for two, into a folder each
ran clone library "$work/two" --target aarch64 riscv64
if [ $status -eq 0 ] && [ "$(ls "$work/two" | tr '\n' ' ')" = 'aarch64 riscv64 ' ] &&
    [ "$(sed 's/: .*//' "$work/out" | tr '\n' ' ')" = 'aarch64 riscv64 ' ]; then
    judge 'two targets' yes
else
    judge "status $status: two targets" no
fi

echo "$passed passed, $failed failed"
[ "$failed" -eq 0 ]
