#!/bin/sh
# What `rt ci` did, crate by crate, the last to be proved first, from what it said, which is read from standard input, each line behind
# the second in which it came and a tab: when the crate was proved, if it was in this run (rt has several under way, and does not say how
# long each took), its functions and tests, its edits, and how many notes the prover has on it: terms that it had to write out at length
# (`large solution`), which cost time and can be mended by naming them, and others. Of a crate that is kept from an earlier run it says less.
set -eu

awk -F '\t' '
    { second = $1; line = $2; split(line, word, " ") }
    # `== NAME` or `== NAME: its tests`, and below it what the prover said; then `rt: NAME proved` or `rt: NAME: its tests are proved`.
    line ~ /^== / { name = word[2]; sub(/:$/, "", name); of_tests = line ~ /: its tests$/; next }
    line ~ /^logic=proved / {
        for (i in word) {
            if (word[i] ~ /^functions=/ && !of_tests) functions[name] = substr(word[i], 11)
            if (word[i] ~ /^tests=/) tests[name] = substr(word[i], 7)
        }
    }
    line ~ /(^| )note: / && line !~ /^rt: / { if (line ~ /note: large solution/) large[name]++; else other[name]++ }
    line ~ /^rt: [a-z][a-z0-9_]* proved$/ { done[word[2]] = second; order[++crates] = word[2] }
    line ~ /^rt: [a-z][a-z0-9_]* is kept: / { order[++crates] = word[2] }
    line ~ /^rt: must-fail / { split(word[3], part, "/"); edits[part[1]]++ }
    function or_dash(value) { return value == "" ? "-" : value }
    END {
        printf "%-10s %9s %9s %6s %6s %6s %6s\n", "crate", "proved at", "functions", "tests", "edits", "large", "other"
        for (i = 1; i <= crates; i++) {
            at = i
            for (j = i + 1; j <= crates; j++) if (done[order[j]] + 0 > done[order[at]] + 0) at = j
            name = order[at]; order[at] = order[i]; order[i] = name
            printf "%-10s %9s %9s %6s %6d %6d %6d\n", name, or_dash(done[name]), or_dash(functions[name]), or_dash(tests[name]), edits[name],
                large[name], other[name]
            f += functions[name]; t += tests[name]; e += edits[name]; l += large[name]; o += other[name]
        }
        printf "%-10s %9s %9d %6d %6d %6d %6d\n", "in all", "", f, t, e, l, o
    }'
