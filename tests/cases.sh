# What the tests here share: inputs of the printing program, how a program is run, and how a case is looked at. They source it.
# shellcheck shell=sh

work=$(mktemp -d)
trap 'rm -rf "$work"' EXIT

# ---- inputs

random() { # TEMPLATE SEQUENCES LETTERS: an input with quorum 1
    awk -v template="$1" -v n="$2" -v letters="$3" 'BEGIN {
        srand(1)
        print template "\n1"
        for (; n > 0; n--) {
            line = ""
            for (i = 0; i < letters; i++) line = line substr("ACGT", int(rand() * 4) + 1, 1)
            print line
        }
    }'
}

# A short one and one that is refused, with what is printed; one with many pages; one with rows for hours.
printf '%s\n' 'N[0,1]N' 2 ACGTA CAGGT AT >"$work/short"
printf '%s\n' 'A[0,1]G 2 3' 'C[0,1]G 2 2' 'G[0,1]T 2 3' 'end 20 3' >"$work/short.out"
printf '%s\n' N +1 A >"$work/bad"
echo 'refused 18 2' >"$work/bad.out"
random NNNNNN 20 400 >"$work/long"
random 'NNNNNN[0,200]NNNNNN' 100 500 >"$work/slow"

cc -std=c99 -pedantic -Wall -Wextra -Werror tests/hangup.c -o "$work/hangup"

# ---- a program by itself

# Names the program that `bare` runs.
program() { # NAME
    words=$(./run --words "$1")
}

# Runs it without `run`: its words are one to a line, and others go before them where there are any. One that takes longer than a
# minute has not stopped.
bare() (
    IFS='
'
    set -f
    # shellcheck disable=SC2086
    exec timeout 60 "$@" $words
)

# ---- a case

cases=0

# Begins a case, which leaves what was printed in out and err, and how it ended in status.
begin() {
    name=$1
    cases=$((cases + 1))
    : >"$work/out"
    : >"$work/err"
    status=0
}

# Runs a command where no file may grow beyond a few KiB, not even the one that it prints to.
in_little_room() { # COMMAND..
    (
        trap '' XFSZ
        ulimit -f 8
        "$@" >"$work/out" 2>"$work/err"
    ) || status=$?
}

# Runs a command, and keeps what it prints and how it ends. It has so many seconds.
longest=100
try() {
    timeout "$longest" "$@" >"$work/out" 2>"$work/err" || status=$?
}

# Runs a command on a file with a pipe for its standard output, from which `head` takes a line and which it closes then: once the
# command learns that by a signal, and once only by the write that fails. LOOK looks at each.
closed_pipe() { # LOOK FILE COMMAND..
    look=$1
    file=$2
    shift 2
    for signal in with without; do
        begin "standard output on a closed pipe, $signal a signal"
        {
            [ "$signal" = with ] || trap '' PIPE
            "$@" <"$file" 2>"$work/err" || status=$?
            echo "$status" >"$work/status"
        } | head -n 1 >"$work/out"
        status=$(cat "$work/status")
        "$look"
    done
}

# Runs a command twice at the same time; each time it prints a file, and the whole of it.
two_at_once() { # FILE COMMAND..
    file=$1
    shift
    for i in 1 2; do
        {
            timeout 500 "$@" >"$work/out.$i" 2>"$work/err.$i" || status=$?
            echo "$status" >"$work/status.$i"
        } &
    done
    wait
    for i in 1 2; do
        cp "$work/out.$i" "$work/out"
        cp "$work/err.$i" "$work/err"
        status=$(cat "$work/status.$i")
        ended 0
        printed "$file"
    done
    cat "$work/err.1" "$work/err.2" >"$work/err"
}

fail() {
    echo "$0: $name: $1"
    for part in out err; do
        echo "-- $part"
        head -c 2000 "$work/$part"
    done
    exit 1
}

# A program by itself: it did not go on.
stopped() {
    [ "$status" -ne 124 ] || fail "it goes on where it cannot write"
}

ended() { # STATUS
    [ "$status" -eq "$1" ] || fail "it ends with $status, and not with $1"
}

printed() { # FILE
    cmp -s "$1" "$work/out" || fail "it does not print what it should"
}

printed_nothing() {
    printed /dev/null
}

said() { # TEXT
    grep -q -F -e "$1" "$work/err" || fail "it does not say: $1"
}

said_one_line() {
    [ "$(wc -l <"$work/err")" -eq 1 ] || fail "it does not say one line"
}

# What was printed are rows, and does not look whole.
printed_rows() {
    [ -s "$work/out" ] || fail "it prints no row"
    if grep -q -e '^end' -e '^refused' "$work/out"; then fail "what it prints looks whole"; fi
}

# The same, and they are the front of a list.
printed_rows_of() { # FILE
    printed_rows
    head -c "$(wc -c <"$work/out")" "$1" | cmp -s - "$work/out" || fail "what it prints is not the front of the list"
}
