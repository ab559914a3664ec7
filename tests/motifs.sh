#!/bin/sh
# The printing program where reading or writing fails: it stops, and nothing that it leaves looks like a whole list.
set -eu
cd "$(dirname "$0")/.."
# shellcheck source=tests/cases.sh
. tests/cases.sh

program motifs

begin "a whole list"
bare <"$work/short" >"$work/out" 2>"$work/err"
printed "$work/short.out"

begin "a refusal"
bare <"$work/bad" >"$work/out" 2>"$work/err"
printed "$work/bad.out"

begin "standard output on a full device"
bare <"$work/slow" >/dev/full 2>"$work/err" || status=$?
stopped

begin "standard output on a file that may not grow"
bare <"$work/long" >"$work/long.out"
in_little_room bare <"$work/long"
stopped
printed_rows_of "$work/long.out"

# A row comes while the search goes on.
stopped_amid_rows() {
    stopped
    printed_rows
}
closed_pipe stopped_amid_rows "$work/slow" bare

begin "standard input a folder"
bare <crates >"$work/out" 2>"$work/err"
printed_nothing
said_one_line

begin "standard input closed"
bare <&- >"$work/out" 2>"$work/err"
printed_nothing
said_one_line

# `cat` shows that the bytes come, and that a read fails then.
begin "a terminal that was hung up"
"$work/hangup" "$work/short" cat >"$work/out" 2>"$work/err" || status=$?
printed "$work/short"
ended 1

begin "standard input that fails after whole lines"
bare "$work/hangup" "$work/short" >"$work/out" 2>"$work/err"
printed_nothing
said_one_line

echo "tests/motifs.sh: $cases cases hold"
