#!/bin/sh
# Puts the library, as an archive that this machine's programs can link, at target/host/libtulfasheq.a.
#
# `rt check` proves the crate `exports`, which is a static library, and all that it is made of; where the gate has just proved them, that
# is left out. The archive is then what the kit's prover builds over what was proved (rattle_over, in kit.sh), as `rt lib` has it do,
# but with three words more: what processor it is for, and the folder of a compiler. That is the kit's own, told two things besides.
# Loops of more than eight rounds are not written out round by round: some were, where a row's words are added up, and lost their speed
# by it (6 in 100 of a search over one long sequence). And no branch lies across 32 bytes: many of Intel's processors run such a one much
# more slowly, and a leg over one long sequence took a third longer by where its loop happened to lie. The functions in the archive are
# aligned.
#
# An archive made from the same sources is kept: their sum and its own are beside it.
set -eu
cd "$(dirname "$0")/.."
# shellcheck source=rust/kit.sh
. rust/kit.sh

say() {
    printf 'rust/library.sh: %s\n' "$1" >&2 || :
}

# One at a time: this is the lock that `run` takes too.
mkdir -p target/run
if command -v flock >/dev/null 2>&1; then
    exec 9>target/run/lock
    flock -n 9 || {
        say "another one is proving, and this one waits for it"
        flock 9
    }
fi

host=target/host
crates=$(crates_of exports)
# shellcheck disable=SC2086
made_of() { sources $crates; }

# Whether the archive is the one that was made from the present sources.
fresh() {
    [ -f "$host/libtulfasheq.a" ] && [ -f "$host/stamp" ] && [ "$(cat "$host/stamp")" = "$(made_of; sha256sum <"$host/libtulfasheq.a")" ]
}

# Reads what is said of the proofs, and tells of each crate when it is proved, with the seconds since the one before, and which are left:
# by then all that it is made of is proved too, also what was so already, of which rt says nothing.
tell_proofs() {
    left=$crates
    since=$(date +%s)
    while IFS= read -r line; do
        printf '%s\n' "$line" >>"$log"
        case $line in
        "crate "*": modules "*)
            done=${line#crate }
            done=${done%%:*}
            continue
            ;;
        logic=proved*) ;;
        *) continue ;;
        esac
        left=$(crates_of "$done" | awk -v left="$left" '
            { proved[$1] }
            END { n = split(left, crate, " "); for (i = 1; i <= n; i++) if (!(crate[i] in proved)) print crate[i] }')
        # shellcheck disable=SC2086
        set -- $left
        now=$(date +%s)
        say "$done proved ($((now - since)) s), $# left${1:+: $*}"
        since=$now
    done
}

# Has the library proved, with all that it is made of. What was said is shown whole if that fails.
prove() {
    log=target/run/library.log
    # shellcheck disable=SC2086
    say "checking that all of the library is proved (some minutes, the first time):$(printf ' %s' $crates)"
    : >"$log"
    # Behind a line end of its own, should rt's last line have none.
    { (cd crates/exports && rt check) 2>&1 && printf '\nlibrary: all is proved\n'; } </dev/null | tell_proofs
    if [ "$(tail -n 1 "$log")" != "library: all is proved" ]; then
        cat "$log" >&2
        exit 1
    fi
}

# Runs a command, and shows what it said only if it fails.
quietly() {
    chatter=$("$@" 2>&1 </dev/null) || {
        printf '%s\n' "$chatter" >&2
        exit 1
    }
}

! fresh || exit 0
mkdir -p "$host"
rm -f "$host/libtulfasheq.a" "$host/stamp"
before=$(made_of)
just_proved exports || prove

work=$(mktemp -d "$PWD/target/library.XXXXXX")
trap 'rm -rf "$work"' EXIT
trap 'exit 1' HUP INT TERM

# The kit's folder of tools by links, but for the compiler.
tools=$(dirname "$(rt doc)")/toolchain
mkdir -p "$work/tools/bin"
for from in "$tools"/* "$tools"/bin/*; do
    to=$work/tools/${from#"$tools/"}
    [ "$to" = "$work/tools/bin" ] || [ "$to" = "$work/tools/bin/clang" ] || ln -s "$from" "$to"
done
machine=$(uname -m)
branches=''
[ "$machine" != x86_64 ] || branches='-mllvm -x86-branches-within-32B-boundaries'
cat >"$work/tools/bin/clang" <<END_OF_COMPILER
#!/bin/sh
exec "$tools/bin/clang" "\$@" -mllvm -unroll-full-max-count=8 $branches
END_OF_COMPILER
chmod +x "$work/tools/bin/clang"

quietly rattle_over build exports --target "$machine-unknown-linux-gnu" --toolchain "$work/tools" --backend llvm -o "$work/libtulfasheq.a"

# Has each function of an archive begin at a multiple of 64 bytes. Where it begins hangs else on what a program has before it, and
# with that how fast its loops are: up to 12 in 100 were seen. No byte of a function changes. Without objcopy all stays as it is.
align() { # ARCHIVE
    command -v objcopy >/dev/null 2>&1 && command -v objdump >/dev/null 2>&1 || return 0
    objdump -h "$1" | awk '$2 ~ /^\.text\./ { print "--set-section-alignment"; print $2 "=64" }' >"$work/sections"
    xargs objcopy "$1" <"$work/sections"
}

align "$work/libtulfasheq.a"
mv "$work/libtulfasheq.a" "$host/libtulfasheq.a"
# No sum is left where a source changed meanwhile: the next call then proves and builds anew.
if [ "$(made_of)" = "$before" ]; then
    printf '%s\n' "$before" "$(sha256sum <"$host/libtulfasheq.a")" >"$host/stamp"
fi
echo "target/host/libtulfasheq.a: the proved crate exports, for $machine"
