#!/usr/bin/env bash
# The wrong programs, each of which the prover has to refuse at the fact that it makes false. They stand in edits,
# crates/NAME/must-fail/*.edit. `rt ci` tries each edit too, and there it is enough that the crate is refused.
#
#     .ci/edits.sh           tries all
#     .ci/edits.sh EDIT..    tries these alone
#
# How one is tried: it is applied in a copy of the repository, and `rt check` goes over the crate there, begun with what the crate's own
# check kept: it checks each module that the edit changes and each that rests on one, and takes the others as they were checked. What
# was kept is a copy too, and a new one for each, so that nothing of an edit is seen by another, or by the crate. Two are tried at a
# time, or as many as RT_JOBS says, each in a copy of its own. What a check says is left in target/edits.
#
# What each has to show: an edit holds one wrong program or several, each under a `file:` line of its own, and says of each by a line
#     # refused at: FILE: FACT
# which fact is false under it. (A goal of a function stands in the function's Answers.antt, or would if it had one.) Refusing the crate
# is not enough: each of those facts has to be among the errors of the check. Nor may anything be refused in those files for a name
# that is not there, which would only mean that the words of a proof were broken; and where several wrong programs share an edit,
# nothing outside those files may be, so that none of them is refused for another's sake. The goals of a function may wait for the
# proof of one that it calls: where both are wrong in one edit, the wrong program whose fact is not told is tried once more, alone.
#
# What is amiss is named, and the status is 1. Where nothing is, the last line counts the wrong programs.
set -euo pipefail
shopt -s nullglob
cd "$(dirname "$0")/.."
export LC_ALL=C

edits=(crates/*/must-fail/*.edit)
named=''
if [ $# -gt 0 ]; then
    named=yes
    edits=("$@")
    for edit; do
        [[ $edit == crates/*/must-fail/*.edit && -f $edit ]] || {
            echo "usage: .ci/edits.sh [crates/NAME/must-fail/LABEL.edit..]" >&2
            exit 2
        }
    done
fi
jobs=${RT_JOBS:-$(nproc 2>/dev/null || echo 1)}
[ -n "${RT_JOBS:-}" ] || [ "$jobs" -le 2 ] || jobs=2

work=$(mktemp -d)
workers=()
# Ends what is still being tried: each worker has a process group of its own.
# shellcheck disable=SC2317
end() {
    local worker
    for worker in "${workers[@]}"; do kill -- "-$worker" 2>/dev/null || :; done
    rm -rf "$work"
}
trap end EXIT
trap 'exit 1' HUP INT TERM

crate_of() { # EDIT
    local crate=${1#crates/}
    echo "${crate%%/*}"
}

# Where what the check said of an edit is left, but for the ending.
said_of() { # EDIT
    echo "target/edits/$(crate_of "$1")/$(basename "$1" .edit)"
}

wrong_programs() { # EDIT
    grep -c '^file: ' "$1" || :
}

# ---- trying

# Copies what a check of a crate reads, and what it or its library kept.
copy_crate() { # CRATE PART TO
    local part
    mkdir -p "$3/out"
    for part in src specs proofs; do
        [ ! -d "crates/$1/$part" ] || cp -R "crates/$1/$part" "$3"
    done
    [ -d "crates/$1/out/$2" ] || return 0
    # rt takes this lock while it works in a crate
    if command -v flock >/dev/null 2>&1; then
        flock "crates/$1" cp -R "crates/$1/out/$2" "$3/out"
    else
        cp -R "crates/$1/out/$2" "$3/out"
    fi
}

# Applies an edit, or one wrong program of it alone, to a copy of its crate: each `old:` text has to stand there once.
apply() { # EDIT CRATE [NUMBER]
    awk -v top="$2" -v only="${3:-}" '
        function fail(what) { print what; failed = 1; exit 1 }
        # how often the text of a file holds a text, and where it first does
        function look(old, rest, from, at) {
            count = 0
            rest = text
            from = 0
            while ((at = index(rest, old)) > 0) {
                if (!count++) first = from + at
                from += at + length(old) - 1
                rest = substr(rest, at + length(old))
            }
        }
        function read(line) {
            text = ""
            while ((getline line <(top "/" path)) > 0) text = text line "\n"
            close(top "/" path)
            if (text == "") fail("there is no file " path)
        }
        /^file: / { number++; path = substr($0, 7); next }
        only != "" && number != only { next }
        /^old: / { old = substr($0, 6); next }
        /^new:/ {
            new = substr($0, 5)
            sub(/^ /, "", new)
            read()
            look(old)
            if (count != 1) fail("its text stands " count " times in " path ", and not once: " old)
            printf "%s", substr(text, 1, first - 1) new substr(text, first + length(old)) >(top "/" path)
            close(top "/" path)
            pairs++
        }
        END { if (!failed && !pairs) { print "it changes nothing"; exit 1 } exit failed }' "$1"
}

# Checks a crate with an edit, or with one wrong program of it alone, in a copy of the repository.
check_with() { # COPY EDIT SAID [NUMBER]
    local crate folder
    crate=$(crate_of "$2")
    folder=$1/crates/$crate
    mkdir -p "$(dirname "$3")"
    mv "$folder" "$1/aside"
    copy_crate "$crate" incremental "$folder"
    if apply "$2" "$folder" "${4:-}" >"$3"; then
        (cd "$folder" && rt check --jobs 1) >"$3" 2>&1 </dev/null || :
    fi
    rm -rf "$folder"
    mv "$1/aside" "$folder"
}

# Each error of a check as `FILE: FACT`, a tab and what is said: that may go on in the next line, set in; what else is set in is advice.
# One at a law that only cites a refused one says nothing of its own. Of goals without an answer all are named in one line.
errors_of() { # SAID
    awk '
        function told() { if (file != "") print file ": " fact "\t" text; file = "" }
        /^  / { if (file != "" && !more++) text = text $0; next }
        { told(); more = 0 }
        / that depends? on `[^`]*`, which was [a-z ]*, w[a-z]* not checked/ { next }
        match($0, /^\.\/[^ ]*:[0-9]+:[0-9]+: error: /) {
            file = substr($0, 3, RLENGTH - 2)
            sub(/:[0-9]+:[0-9]+: error: $/, "", file)
            text = substr($0, RLENGTH + 1)
            fact = ""
            if (match(text, /^`[^`]*`: /)) {
                fact = substr(text, 2, RLENGTH - 4)
                text = substr(text, RLENGTH + 1)
            }
            next
        }
        match($0, /^fn .* no proof: expected [a-z]+ in \.\//) {
            where = substr($0, RLENGTH + 1)
            goals = where
            sub(/;.*/, "", where)
            sub(/^[^;]*; `search` did not prove /, "", goals)
            n = split(goals, part, "`")
            for (i = 2; i <= n; i += 2) print where ": " part[i] "\tnot proved"
        }
        END { told() }' "$1"
}

complain() { # EDIT TEXT
    printf '%s: %s\n' "$1" "$2"
}

# Whether the crate was refused; complains where it was proved, or where nothing was judged.
judged() { # EDIT SAID
    if grep -q '^logic=proved' "$2"; then
        complain "$1" 'it is not refused'
    elif ! grep -q '^logic=not-proved' "$2"; then
        complain "$1" "there is no verdict: $(grep -m 1 -E 'error|stands|changes|there is no' "$2" || :)"
    else
        return 0
    fi
    return 1
}

# Complains of what is refused in the files of some facts for a name that is not there.
hold_names() { # EDIT ERRORS FACTS
    local error
    while IFS= read -r error; do
        grep -q -F -e "${error%%: *}: " "$3" || continue
        case $error in
        *' is not in scope'* | *' has no field '* | *' has no `'* | *' that can be named from here'*)
            complain "$1" "refused for a name: $error"
            ;;
        esac
    done <"$2"
}

# Whether the function of a fact calls one that is not proved.
waits() { # CRATE FACT SAID
    local function=${2#proofs/}
    function=${function%/*}
    grep -q -e "^fn $1::${function//\//::}: .*; it calls " -e "^fn $1::${function//\//::}: no proof: it calls " "$3"
}

# Tries an edit, and complains of what is amiss.
try() { # COPY EDIT
    local copy=$1 edit=$2 said facts=$1/facts errors=$1/errors alone=$1/alone number=0 fact error
    said=$(said_of "$edit")
    rm -f "$said".log "$said".*.log
    sed -n 's/^# refused at: //p' "$edit" >"$facts"
    if [ "$(grep -c . "$facts")" -ne "$(wrong_programs "$edit")" ] || [ -n "$(sort "$facts" | uniq -d)" ]; then
        complain "$edit" 'it does not name one fact for each wrong program'
        return
    fi
    check_with "$copy" "$edit" "$said.log"
    judged "$edit" "$said.log" || return 0
    errors_of "$said.log" >"$errors"
    hold_names "$edit" "$errors" "$facts"
    if [ "$(grep -c . "$facts")" -gt 1 ]; then
        while IFS= read -r error; do
            grep -q -F -e "${error%%: *}: " "$facts" || complain "$edit" "refused besides: $error"
        done <"$errors"
    fi
    while IFS= read -r fact; do
        number=$((number + 1))
        ! cut -f 1 "$errors" | grep -q -x -F -e "$fact" || continue
        if [ "$(grep -c . "$facts")" -gt 1 ] && waits "$(crate_of "$edit")" "$fact" "$said.log"; then
            check_with "$copy" "$edit" "$said.$number.log" "$number"
            judged "$edit, $fact" "$said.$number.log" || continue
            errors_of "$said.$number.log" >"$alone"
            echo "$fact" >"$copy/fact"
            hold_names "$edit" "$alone" "$copy/fact"
            ! cut -f 1 "$alone" | grep -q -x -F -e "$fact" || continue
        fi
        complain "$edit" "$fact is not refused"
    done <"$facts"
}

# Each worker goes through the list and tries what none has begun.
worker() { # NUMBER
    local n crate copy=$work/copy/$1 from
    mkdir -p "$copy/crates"
    cp crates.txt "$copy"
    for crate in crates/*; do copy_crate "${crate#crates/}" rlib "$copy/$crate"; done
    for n in "${!tried[@]}"; do
        mkdir "$work/begun/$n" 2>/dev/null || continue
        from=$SECONDS
        try "$copy" "${tried[n]}" >"$work/said/$n"
        echo "${tried[n]}: tried, $((SECONDS - from)) s"
        : >"$work/ended/$n"
    done
}

# What is not proved is proved first.
prove() {
    local crate
    if [ -z "$named" ]; then
        rt all check
    else
        for crate in $(for edit in "${edits[@]}"; do crate_of "$edit"; done | sort -u); do
            (cd "crates/$crate" && rt check) || return 1
        done
    fi
}
prove >"$work/check" 2>&1 </dev/null || {
    cat "$work/check"
    exit 1
}

# The dearest first: those of the crates that kept the most.
tried=()
while read -r _ edit; do tried+=("$edit"); done < <(
    for edit in "${edits[@]}"; do
        echo "$(du -sk "crates/$(crate_of "$edit")" | cut -f 1) $edit"
    done | sort -s -n -r
)
mkdir "$work/begun" "$work/said" "$work/ended" "$work/copy"
set -m
for ((i = 0; i < jobs; i++)); do
    worker "$i" </dev/null &
    workers+=($!)
done
set +m
wait "${workers[@]}" || :
workers=()

# ---- what is amiss

# Each edit is one of those that are tried.
[ -n "$named" ] || find crates -path '*/must-fail/*' ! -name '*.md' -type f | sort |
    comm -23 - <(printf '%s\n' "${edits[@]}" | sort) | sed 's/$/: nothing tries it/' >"$work/said/lost"
programs=0
for n in "${!tried[@]}"; do
    [ -f "$work/ended/$n" ] || complain "${tried[n]}" 'it was not tried to its end' >>"$work/said/$n"
    programs=$((programs + $(wrong_programs "${tried[n]}")))
done
cat "$work"/said/* >"$work/amiss"
if [ -s "$work/amiss" ]; then
    cat "$work/amiss"
    exit 1
fi
echo "$programs wrong programs of ${#tried[@]} edits refused, each at its fact"
