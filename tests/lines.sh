#!/bin/sh
# The program that cuts FASTA to lines, by itself and by `run`: what it prints, and that it leaves no line where reading fails.
set -eu
cd "$(dirname "$0")/.."
# shellcheck source=tests/cases.sh
. tests/cases.sh

program lines

# ---- inputs

# One with all that a file may have; one that the printing program's short input can be cut from; one that is long, with a short
# line before the others.
printf '\r\n>p1 promoter\r\nACG\r\n\r\nTA\r\n>p2\n>\tp3\n\nCAGGT\n>p4\nAT' >"$work/fa"
printf '%s\n' ACGTA '' CAGGT AT >"$work/fa.out"
printf '>a\nACGTA\n>b\nCAG\nGT\n>c\nAT' >"$work/e.fa"
{
    printf '>a\nA\n'
    random N 600 1000 | sed -e 1,2d -e 's/^/>\n/'
} >"$work/long.fa"
{
    echo A
    random N 600 1000 | sed 1,2d
} >"$work/long.out"

letters() { # BYTES: a file of so many, with one record
    printf '>\n'
    head -c $(($1 - 2)) /dev/zero | tr '\0' A
}

# ---- what is printed. Each is looked at by itself and by `run`

prints() { # NAME STATUS OUTPUT INPUT
    begin "$1, by itself"
    bare <"$4" >"$work/out" 2>"$work/err"
    printed "$3"
    [ ! -s "$work/err" ] || fail "it says something"
    begin "$1, by run"
    try ./run lines "$4"
    ended "$2"
    printed "$3"
    [ ! -s "$work/err" ] || fail "it says something"
}

refuses() { # NAME OUTPUT INPUT
    echo "$2" >"$work/refused.out"
    prints "$1" 3 "$work/refused.out" "$3"
}

prints "all that a file may have" 0 "$work/fa.out" "$work/fa"
prints "a long file" 0 "$work/long.out" "$work/long.fa"
: >"$work/none"
prints "an empty file" 0 /dev/null "$work/none"
printf '\n\r\n\n' >"$work/none"
prints "a file without a record" 0 /dev/null "$work/none"

printf 'ACG\n>p1\nACG\n' >"$work/bad"
refuses "text before the first record" "refused 19 0" "$work/bad"
printf '>p1\nACG\n>p2\nACG\nAcG\n' >"$work/bad"
refuses "a byte that is no letter, behind a record that is sound" "refused 4 17" "$work/bad"
printf '>p1\nACG\rT\n' >"$work/bad"
refuses "a byte 13 within a line" "refused 4 7" "$work/bad"

letters 1048576 >"$work/full"
sed -n 2p "$work/full" >"$work/full.out"
echo >>"$work/full.out"
prints "a file of 1 MiB" 0 "$work/full.out" "$work/full"
for more in 1 255 256 257 9999; do
    letters $((1048576 + more)) >"$work/over"
    refuses "a file of 1 MiB and $more bytes" "refused 20 0" "$work/over"
done

# ---- where writing fails

begin "standard output on a full device, by itself"
bare <"$work/fa" >/dev/full 2>"$work/err"
said_one_line

for input in fa bad; do
    begin "standard output on a full device, $input"
    timeout 100 ./run lines "$work/$input" >/dev/full 2>"$work/err" || status=$?
    ended 4
    said "these are not all lines"
done

one_line() {
    echo A >"$work/one.out"
    printed "$work/one.out"
    [ "$status" -ne 0 ] || said_one_line
}
closed_pipe one_line "$work/long.fa" bare

not_all() {
    ended 4
    said "these are not all lines: it could not be written"
    one_line
}
closed_pipe not_all "$work/long.fa" timeout 100 ./run lines

not_any() {
    ended 4
    printed_nothing
    said "no line is printed"
}

begin "no room for what is kept"
in_little_room timeout 100 ./run lines "$work/long.fa"
not_any

begin "standard output closed"
timeout 100 ./run lines "$work/fa" >&- 2>"$work/err" || status=$?
ended 4
said_one_line

# ---- where reading fails

begin "standard input a folder, by itself"
bare <crates >"$work/out" 2>"$work/err"
printed_nothing
said_one_line

begin "standard input a folder"
try ./run lines <crates
not_any

begin "standard input closed, by itself"
bare <&- >"$work/out" 2>"$work/err"
printed_nothing
said_one_line

begin "standard input closed"
try ./run lines <&-
ended 4
printed_nothing
said_one_line

begin "standard input that fails after whole lines, by itself"
bare "$work/hangup" "$work/e.fa" >"$work/out" 2>"$work/err"
printed_nothing
said_one_line

begin "standard input that fails after whole lines"
try "$work/hangup" "$work/e.fa" ./run lines
not_any

begin "a run that is stopped"
mkfifo "$work/fifo"
./run lines <"$work/fifo" >"$work/out" 2>"$work/err" &
exec 4>"$work/fifo"
cat "$work/e.fa" >&4
sleep 1
kill $!
wait $! || status=$?
exec 4>&-
not_any
said "it was stopped"

# ---- what is not run

begin "a folder for a file"
try ./run lines crates
ended 2
printed_nothing
said_one_line

# ---- from FASTA to motifs, as docs/PRINTING.md has it

search() { # FILE
    timeout 100 ./run lines "$1" >"$work/cut" && {
        printf '%s\n' 'N[0,1]N' 2
        cat "$work/cut"
    } | timeout 100 ./run motifs
}

begin "FASTA to the printing program"
search "$work/e.fa" >"$work/out" 2>"$work/err" || status=$?
sed 1,2d "$work/short" | cmp -s - "$work/cut" || fail "the lines are not the printing program's"
ended 0
printed "$work/short.out"

for input in bad over; do
    begin "a refused file does not reach the printing program, $input"
    search "$work/$input" >"$work/out" 2>"$work/err" || status=$?
    grep -q '^refused ' "$work/cut" || fail "it is not refused"
    ended 3
    printed_nothing
done

echo "tests/lines.sh: $cases cases hold"
