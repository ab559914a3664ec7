#!/bin/sh
# Prints docs/STATEMENTS.md from the sources: the demands, the promises of the public calls, the definitions that the demands are made of,
# and a sum of each file of definitions, quoted or not. The gate compares the two, and fails where they differ:
#     .ci/statements.sh | diff docs/STATEMENTS.md -
# After a change that is meant: .ci/statements.sh >docs/STATEMENTS.md, which drops the signature, since another text was signed.
# A thing that is named below and is not there, or is there twice, a statement that nothing proves, or a public call that promises nothing
# or asks something of its caller is told, and the status is 1.
set -eu
cd "$(dirname "$0")/.."
# files in one order, wherever it is run
LC_ALL=C
export LC_ALL

page=docs/STATEMENTS.md
unsigned='Signed: (nobody yet)'
work=$(mktemp -d)
trap 'rm -rf "$work"' EXIT
: >"$work/quoted"

fail() {
    printf 'statements.sh: %s\n' "$1" >&2
    exit 1
}

# The file, of those in the folders `specs` or `proofs`, that has the one line that matches a pattern: $1 the folder, $2 the pattern, $3 what
# is looked for. It has to be one that its folder's Lib.antt declares, since no other is checked.
the_file() {
    grep -r -E -e "$2" --include='*.antt' crates/*/"$1" >"$work/found" || :
    [ "$(grep -c . "$work/found")" -eq 1 ] || fail "$3 stands $(grep -c . "$work/found") times in $1, and not once"
    where=$(cut -d : -f 1 "$work/found")
    grep -q -x -e "pub mod $(basename "$where" .antt)" "$(dirname "$where")/Lib.antt" || fail "$where, with $3, is not declared in Lib.antt"
    printf '%s\n' "$where"
}

# Quotes the files in which these definitions stand, without their imports, each file once.
definitions() {
    for name; do
        file=$(the_file specs "^ *((abbrev|unfoldable) )?pub ((record|data) )?$name( |\$)" "$name") || exit 1
        grep -q -x -F -e "$file" "$work/quoted" && continue
        printf '%s\n' "$file" >>"$work/quoted"
        printf '### `%s`\n\n```\n' "$file"
        awk '/^use / { used = 1; next } used && /^$/ { used = 0 } { print }' "$file"
        printf '```\n\n'
    done
}

# Quotes statements so, each with what proves it.
statements() {
    for name; do
        definitions "$name"
        file=$(the_file proofs "^pub [^ ]+ : (.* → )?$name( [^→]*)?\$" "a proof of $name") || exit 1
        printf 'Proved in `%s`: `%s`\n\n' "$file" "$(sed 's/^[^:]*:pub //' "$work/found")"
    done
}

# Quotes every public function of these crates down to its body, with the comment above it; and first, from which files their promises have
# their words. A body begins with a brace on a line of its own.
calls() {
    for crate; do
        file=crates/$crate/src/lib.rt
        [ -f "$file" ] || fail "there is no $file"
        printf '### `%s`\n\n```\n' "$file"
        awk -v file="$file" '
            function fail(what) { print "statements.sh: " file ": " what > "/dev/stderr"; failed = 1; exit 1 }
            /^ *pub (mod|use) / { fail("what it makes public elsewhere is not quoted: " $0) }
            /^ghost use / { print; words++; next }
            inside { text = text $0 "\n" }
            inside && /^ *requires\*? / { fail("a public call has a requires: " name) }
            inside && /^ *ensures\*? / { promises++ }
            inside && /[^ ] *\{$/ { fail("a promise over several lines is not quoted: " name) }
            inside && /^ *\{$/ {
                if (!promises) fail("a public call promises nothing: " name)
                sub(/ *\{\n$/, "", text)
                printf "\n%s", text
                shown++
                inside = 0; text = ""
            }
            inside { next }
            /^ *#\[tactic\(/ { next }
            /^ *(\/\/|#\[)/ { text = text $0 "\n"; next }
            /^ *pub (extern "C" )?fn / { inside = 1; promises = 0; name = $0; text = text $0 "\n"; next }
            { text = "" }
            END { if (!failed && !(shown && words)) fail("it has no public call, or their promises no words") }' "$file"
        printf '```\n\n'
    done
}

# Prints for each file of these crates' definitions its sum: the first eight bytes of its SHA-256.
sums() {
    for crate; do
        for file in crates/"$crate"/specs/*.antt; do
            [ -f "$file" ] || continue
            printf '| `%s` | %s |\n' "$file" "$(sha256sum <"$file" | cut -c 1-16)"
        done
    done
}

{
    cat <<EOF
# The statements

What the proofs prove, word for word: the three demands, what each public call promises, and the definitions that the demands are made of.
\`.ci/statements.sh\` quotes them from the sources, and the gate fails where this page differs from them. At its end stands a sum of every
file of definitions that the demands and the promises rest on, quoted here or not. So no statement gets weaker without a line of this
page's diff that says so. After a change that is meant the page is renewed: \`.ci/statements.sh >$page\`.

A reader signs here, with a name and a date. A signature is for the text as it stands: renewing the page drops it.

$unsigned

The demands are of the rules of the calls (\`begin_rule\`, \`leg_rule\` and so on), which the calls promise to keep. What the rules say stands
in the other files of \`crates/rules/specs\`, and what the exported functions make of them in \`crates/exports/specs\`. No public call asks
anything of its caller: none has a \`requires\`.

## The demands

EOF
    statements Demand1 Demand2 Demand3
    statements ExportedLegs
    statements Program

    cat <<EOF
## The public calls

What follows \`ensures\` holds of every call, whatever it is given: \`.old\` is what a lent table held before it, \`.new\` what it holds after
it, and \`.now\` what stands in one that is only read. A word before the braces is the promise's name.

EOF
    calls search saved recovery joins fasta exports

    cat <<EOF
## What the demands are made of

EOF
    statements EachRefusal
    definitions RefusesAt
    statements TextRefused FastaRefused FastaProgram
    definitions ReadWhole
    statements FastaWritten
    definitions Complete WellFormed Through Roomy Ample Recovers RefusedAsCut SoundTemplate Occurs Rising

    cat <<EOF
## Every kind of search

EOF
    statements WalkDemands EveryKind

    cat <<EOF
## All definitions, by their sums

The files of definitions of \`rules\`, of the crates with public calls, and of \`places\`, \`legs\` and \`records\`, over which they stand. They are
what a reader must believe: those that are quoted above (without the lines that say where their words come from) and those that are not.

| file | sum |
|---|---|
EOF
    sums rules places legs records recovery joins fasta exports motifs
    echo
} >"$work/all"
sed '$d' "$work/all" >"$work/page"

# The page as it stands, with its signature, if it is this text.
if [ -f "$page" ] && sed 's/^Signed: .*/'"$unsigned"'/' "$page" | cmp -s - "$work/page"; then
    cat "$page"
else
    cat "$work/page"
fi
