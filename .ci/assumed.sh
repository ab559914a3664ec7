#!/bin/sh
# Prints what the proofs take on trust and what they ask of a caller: for each crate that is linked, a program or the library, the C
# functions whose contracts its verdict rests on (`axioms=`), and, from the sources, each public function that has a `requires` and each
# fact that a public type holds (`ghost`, whether others may name it or not), which whoever makes a value of it has to show. The gate
# compares it with assumed.txt, and fails where they differ. After a change that is meant: .ci/assumed.sh >.ci/assumed.txt
#
# The prover is asked, over what was proved: where the gate has just proved all, over that; else rt check proves first what is not.
# A verdict that has a word which is not known here is told too, and the status is 1.
set -eu
cd "$(dirname "$0")/.."
# shellcheck source=rust/kit.sh
. rust/kit.sh

# The crates whose public functions may ask something of their callers, all of which are in this repository and proved to meet
# it. What is called from outside asks nothing.
inner=' rules checks rows matching places legs records ways descent text stdin '

crates=$(all_crates | sort)
work=$(mktemp -d)
trap 'rm -rf "$work"' EXIT

# What the prover says of a crate, with each C function that is reached.
ask() { # NAME
    if just_proved "$1"; then
        rattle_over check "$1" --list-axioms
    else
        (cd "crates/$1" && rt check --list-axioms)
    fi
}

echo "# Printed by assumed.sh: what is assumed of C functions, which public functions have a requires, and which facts public types hold."

for crate in $crates; do
    is_program "$crate" || is_static "$crate" || continue
    ask "$crate" >"$work/said" 2>&1 </dev/null || {
        cat "$work/said" >&2
        echo "assumed.sh: $crate is not proved" >&2
        exit 1
    }
    awk -v crate="$crate" '
        function fail(what) { print "assumed.sh: " crate ": " what > "/dev/stderr"; failed = 1; exit 1 }
        # The report and the verdict of the crate itself come last, behind those of libraries that were proved for it.
        /^crate / { names = ""; reached = 0; verdict = "" }
        /^  .*[^ ]  *reached$/ { names = names " " $1; reached++ }
        /^logic=/ { verdict = $0 }
        END {
            if (failed) exit 1
            n = split(verdict, word, " ")
            if (word[1] != "logic=proved") fail("there is no verdict that it is proved")
            for (i = 2; i <= n; i++) {
                if (word[i] ~ /^axioms=/) count = substr(word[i], 8)
                else if (word[i] !~ /^(functions|target|cpu|sum|native)=/ && word[i] !~ /^(logic-built|libraries-built|statements|incremental)=trusted$/)
                    fail("its verdict has a word that is not known here: " word[i])
            }
            if (count + 0 != reached) fail("its verdict counts " count + 0 " axioms, and " reached " are named")
            print "axioms " crate " " count + 0 names
        }' "$work/said"
done

# A function is public if it is in lib.rt or in a module that lib.rt makes public or names in a `pub use`, or is a method.
for crate in $crates; do
    src=crates/$crate/src
    [ -f "$src/lib.rt" ] || continue
    asked=$(awk -v crate="$crate" '
        FNR == 1 { file = FILENAME; sub(/.*\/src\//, "", file); sub(/\.rt$/, "", file); public["lib"] = 1; seen = 0 }
        { sub(/\/\/.*/, "") }
        file == "lib" && /^pub (mod|use) / { module = $3; sub(/[:;].*/, "", module); public[module] = 1 }
        /^(pub[^ ]* )?struct / { seen = /^pub /; type = $0; sub(/.*struct /, "", type); sub(/[^A-Za-z0-9_].*/, "", type) }
        /^ +(pub )?ghost [a-z0-9_]+:/ && seen && file in public { fact = $0; sub(/.*ghost /, "", fact); sub(/:.*/, "", fact); print "holds " crate "::" type " " fact }
        /^impl[ <]/ { type = $0; sub(/^impl(<[^>]*>)? +/, "", type); sub(/[ <{].*/, "", type) }
        /(^| )fn / {
            name = $0; sub(/.*fn /, "", name); sub(/[^a-z0-9_].*/, "", name)
            method = /^ /
            shown = /^ *pub / && (method || file in public)
            path = crate "::" (method ? type "::" : file == "lib" ? "" : file "::") name
        }
        /(^| )requires\*?( |$)/ && shown { print "requires " path; shown = 0 }' "$src/lib.rt" "$src"/*.rt | LC_ALL=C sort -u)
    [ -z "$asked" ] || case $inner in
    *" $crate "*) printf '%s\n' "$asked" ;;
    *)
        printf '%s\n' "assumed.sh: a public function of $crate has a requires, and may have none:" "$asked" >&2
        exit 1
        ;;
    esac
done
