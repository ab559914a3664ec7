#!/bin/sh
# How `run` ends: its statuses, also where reading or writing fails; two of it at once; and that it proves what has changed.
set -eu
cd "$(dirname "$0")/.."
# shellcheck source=tests/cases.sh
. tests/cases.sh

not_whole() {
    ended 4
    said "not the whole list"
}

program motifs

begin "a whole list"
try ./run motifs "$work/short"
ended 0
printed "$work/short.out"

begin "a list of many pages"
# shellcheck disable=SC2119
bare <"$work/long" >"$work/long.out"
try ./run motifs <"$work/long"
ended 0
printed "$work/long.out"

begin "a refusal"
try ./run motifs "$work/bad"
ended 3
printed "$work/bad.out"

# ---- what is not whole

for input in short bad slow; do
    begin "standard output on a full device, $input"
    timeout 100 ./run motifs "$work/$input" >/dev/full 2>"$work/err" || status=$?
    not_whole
done

begin "standard output on a file that may not grow"
in_little_room timeout 100 ./run motifs "$work/long"
not_whole
printed_rows_of "$work/long.out"

not_whole_amid_rows() {
    not_whole
    printed_rows
}
closed_pipe not_whole_amid_rows "$work/slow" timeout 100 ./run motifs

begin "standard output closed"
timeout 100 ./run motifs "$work/short" >&- 2>"$work/err" || status=$?
ended 4
said_one_line

begin "standard input a folder"
try ./run motifs <crates
not_whole
printed_nothing

begin "standard input closed"
try ./run motifs <&-
ended 4
printed_nothing
said_one_line

begin "standard input that fails after whole lines"
try "$work/hangup" "$work/short" ./run motifs
not_whole
printed_nothing

begin "a program that is stopped"
(
    # shellcheck disable=SC3045
    ulimit -t 1
    timeout 100 ./run motifs "$work/slow" >"$work/out" 2>"$work/err"
) || status=$?
not_whole

begin "a run that is stopped"
./run motifs "$work/slow" >"$work/out" 2>"$work/err" &
until [ -s "$work/out" ] || ! kill -0 $!; do sleep 1; done
kill $!
wait $! || status=$?
not_whole
said "it was stopped"
printed_rows

# ---- what is not run

begin "no such file"
try ./run motifs "$work/none"
ended 2
printed_nothing
said_one_line

begin "a folder for a file"
try ./run motifs crates
ended 2
printed_nothing
said_one_line

begin "no such program"
try ./run motif "$work/short"
ended 2
printed_nothing
said "  motifs: "

begin "no kit"
mkdir "$work/bin"
for tool in sh dirname; do ln -s "$(command -v "$tool")" "$work/bin/$tool"; done
try env PATH="$work/bin" sh run motifs "$work/short"
ended 2
printed_nothing
said_one_line

begin "help"
try ./run --help
ended 0
grep -q '^  motifs: ' "$work/out" || fail "it does not name the programs"

begin "by a link to a link, from another folder"
ln -s "$PWD/run" "$work/one"
ln -s one "$work/two"
cd "$work"
try ./two motifs short
cd "$OLDPWD"
ended 0
printed "$work/short.out"

# ---- two at once

begin "two at once, of a program that is built"
two_at_once "$work/short.out" ./run motifs "$work/short"
[ ! -s "$work/err" ] || fail "it is checked again"

# ---- a repository of one small program

mkdir -p "$work/small/crates/motifs/src"
cp run "$work/small"
cd "$work/small"
echo 'motifs:' >crates.txt
prints() { # LINE
    cat >crates/motifs/src/main.rt <<END
// Prints a line.
#![tactic(auto)]

use std::io;

fn main(rt: HostRuntime) -> io::Result<()> {
    println!(rt; "$1")
}
END
    echo "$1" >crates/motifs/stdout
}

begin "two at once, where it is to be proved"
prints "end 0 0"
two_at_once crates/motifs/stdout ./run motifs "$work/short"
[ "$(grep -c '^run: motifs proved (' "$work/err")" -eq 1 ] || fail "it is not proved once"

begin "two at once, where it is to be checked"
rm target/run/motifs
two_at_once crates/motifs/stdout ./run motifs "$work/short"
said "checking"
if grep -q ' proved ([0-9]' "$work/err"; then fail "it is proved again"; fi

# What is proved anew may take longer.
longest=500
begin "a program that changed"
prints "end 1 1"
try ./run motifs "$work/short"
ended 0
printed crates/motifs/stdout
said "motifs proved ("

begin "a program that is not proved"
printf '%s\n' '' 'pub fn sum(a: u8, b: u8) -> u8 {' '    a + b' '}' >>crates/motifs/src/main.rt
try ./run motifs "$work/short"
ended 1
printed_nothing
said "motifs is not proved"

cd "$OLDPWD"
echo "tests/run.sh: $cases cases hold"
