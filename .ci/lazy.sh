#!/bin/sh
# Prints docs/LAZY.md from the must-fail edits: of each wrong program its label, what is wrong in a sentence, and the fact at which it is
# refused. The gate compares; after a change that is meant: .ci/lazy.sh >docs/LAZY.md
#
# An edit says of each wrong program, in comment lines before its `file:` line,
#     # LABEL: SENTENCE
#     # refused at: FILE: FACT
# and an edit with a single one may leave out the label, which is then the file's name. What lacks one of these, a label that stands twice
# in a crate, one that is named below and is not there, and a crate without an introduction are complained of, and the status is 1.
set -eu
cd "$(dirname "$0")/.."
export LC_ALL=C

work=$(mktemp -d)
trap 'rm -rf "$work"' EXIT

# The wrong programs that stand under a heading of document 01, in its order, and an introduction for each crate, in the order of the page.
cat >"$work/page" <<'END'
heading	The lazy programs of document 01
intro	Those that "Why a lazy program cannot pass" names, in its order.
row	search/refuses_all
row	legs/empty_list
row	legs/says_spent
row	legs/says_ended
row	legs/invented_steps
heading	Ways this goes astray
intro	Those that document 01 names under these words, in its order.
row	rules/gap_start_to_start
row	rules/start_to_start
row	joins/start_to_start
row	rows/next_sequence
row	rows/next_word
row	rows/two_words_short
row	rows/bit_at_the_end
row	rows/offsets_of_none
row	descent/first_partner_only
row	descent/row_listed_twice
row	rules/power_in_64_bits
row	rules/last_motif_refused
row	checks/deepest_place_lost
row	records/deepest_places_lost
row	records/ended_restored_as_first
row	legs/motif_dropped
crate	rules	Definitions and limits, and the letters, profiles and records that all crates share. An edit of `specs` is of a definition: a law or a table of facts is false under it.
crate	checks	What a call refuses, and with which number and place.
crate	search	A new search and a leg: `search::begin`, `search::leg`.
crate	legs	A leg of a search that was checked up to 13: 13, the walk, and the rows of its tables.
crate	rows	Rows of bits over the set, and counts beside them, of which a leg is made.
crate	matching	The path of a leg: a candidate's support, a motif's weighted support.
crate	places	13: whether a search passes through its place.
crate	records	The records of a save: read and checked up to 13, and written.
crate	saved	`saved::save` and `saved::restore`.
crate	ways	The counts that recovery goes by.
crate	descent	Recovery's rows, component by component.
crate	recovery	`recovery::recover`.
crate	joins	`joins::join`.
crate	fasta	The FASTA reader.
crate	exports	The calls for C and Rust: what is passed on to the calls above, and what is told of their answers.
crate	text	What the printing program reads and prints.
crate	motifs	The pages of the printing program.
crate	lines	The program that prints a FASTA file's sequences.
crate	stdin	What a read of standard input makes of what came before.
END

# Each wrong program in a line: crate, fact, label, sentence. Lines of comment that follow one another are one sentence.
find crates -path '*/must-fail/*' -name '*.edit' | sort >"$work/edits"
while IFS= read -r edit; do
    awk -v edit="$edit" '
        BEGIN {
            n = split(edit, part, "/")
            name = part[n]
            sub(/\.edit$/, "", name)
        }
        function complain(what) { print edit ": " what >"/dev/stderr"; status = 1 }
        /^# refused at: / { fact = substr($0, 15); next }
        /^# / { said = said (said == "" ? "" : " ") substr($0, 3); next }
        /^file: / {
            label = name
            if (match(said, /^[a-z][a-z0-9_]*: /)) {
                label = substr(said, 1, RLENGTH - 2)
                said = substr(said, RLENGTH + 1)
            } else
                unlabelled = 1
            if (said == "") complain("no sentence: " label)
            if (fact == "") complain("no fact: " label)
            gsub(/\|/, "\\|", said)
            print part[2] "\t" fact "\t" label "\t" said
            rows++
        }
        { said = ""; fact = "" }
        END {
            if (!rows) complain("no wrong program")
            if (rows > 1 && unlabelled) complain("several wrong programs, and one has no label")
            exit status
        }
    ' "$edit"
done <"$work/edits" >"$work/unsorted"
sort "$work/unsorted" >"$work/rows"

cat <<'END'
# Wrong programs, and where each is refused

Printed by `.ci/lazy.sh` from the edits themselves; the gate compares. Not written by hand.

Each row is a wrong program that the prover has to refuse: a line or two of code or of a definition changed. An edit is a file under
`crates/CRATE/must-fail`, named by the label, or one that holds several wrong programs, each under its label. Those that share a file are
of different functions (or of a constant or a promise that no other of them rests on): a function is proved against its own contract and
those of the functions that it calls, so what is wrong in one changes nothing of what is asked of another, and each is refused for itself.

The last column is the fact that is false under the edit, FILE: FACT, in the crate's `proofs` unless it begins with `specs`; FUNCTION: FACT
where it is a goal of a function, which `proofs/FUNCTION/Answers.antt` answers, or Rattle by itself. Refusing the crate is not enough:
`.ci/edits.sh` demands that this fact is among the errors, that nothing is refused for a name that is not there, and, where several share an
edit, that nothing else is refused. That the fact is false is judged by reading. A law that still holds, but whose proof no longer fits, may
be refused before it. Each edit is tried over what the crate's own check proved, in `rt ci` and in `.ci/edits.sh`.
END
awk -F '\t' '
    function complain(what) { print "lazy.sh: " what >"/dev/stderr"; status = 1 }
    function table(what) { print "\n| edit | " what " | refused at |\n|---|---|---|" }
    function row(key, name) {
        print "| `" name "` | " said[key] " | `" fact[key] "` |"
        printed[key] = 1
    }
    FNR == NR {
        key = $1 "/" $3
        if (key in said) complain("two wrong programs are named " key)
        order[++n] = key
        crate[key] = $1; fact[key] = $2; label[key] = $3; said[key] = $4
        sub(/^proofs\//, "", fact[key])
        sub(/\/Answers\.antt: /, ": ", fact[key])
        next
    }
    $1 == "heading" { print "\n## " $2; next }
    $1 == "intro" { print "\n" $2; table("the wrong program"); next }
    $1 == "row" {
        if ($2 in said) row($2, $2)
        else complain("no edit has " $2)
        next
    }
    {
        head = "\n## `" $2 "`\n\n" $3
        for (i = 1; i <= n; i++) {
            key = order[i]
            if (crate[key] != $2 || key in printed) continue
            if (head != "") { print head; table("the wrong program"); head = "" }
            row(key, label[key])
        }
    }
    END {
        for (i = 1; i <= n; i++) if (!(order[i] in printed)) complain("no introduction: " order[i])
        exit status
    }
' "$work/rows" "$work/page"
