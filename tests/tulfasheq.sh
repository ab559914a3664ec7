#!/bin/sh
# How `tulfasheq` builds the operators' program and runs it: what README shows first, from elsewhere, two at once, without the kit;
# and what it tells while the library is proved.
# What the program itself does is tested in cli/tests.
set -eu
cd "$(dirname "$0")/.."
# shellcheck source=tests/cases.sh
. tests/cases.sh

mark=target/run/tulfasheq
set -- search 'NNN[0,3]NN' 50% examples/promoters.fa

begin "README's first command"
try ./tulfasheq "$@"
ended 0
printed examples/promoters.tsv

begin "what is built is not built again"
try ./tulfasheq "$@" --quiet
ended 0
printed examples/promoters.tsv
[ ! -s "$work/err" ] || fail "it says something"

begin "the first search that --help shows, pasted"
try sh -c "$(./tulfasheq --help | grep '^ *\./tulfasheq ')"
ended 0
printed examples/promoters.tsv

begin "by a link to a link, from another folder, on a file of that folder"
ln -s "$PWD/tulfasheq" "$work/one"
ln -s one "$work/two"
cp examples/promoters.fa examples/promoters.tsv "$work"
cd "$work"
try ./two search 'NNN[0,3]NN' 50% promoters.fa
cd "$OLDPWD"
ended 0
printed examples/promoters.tsv

begin "two at once, where it is to be built"
rm "$mark"
two_at_once examples/promoters.tsv ./tulfasheq "$@"

begin "whatever the caller has cargo build to"
rm "$mark"
try env CARGO_TARGET_DIR="$work/elsewhere" ./tulfasheq "$@"
ended 0
printed examples/promoters.tsv
[ ! -e "$work/elsewhere/release" ] || fail "it builds elsewhere"

begin "the program's own status"
try ./tulfasheq search N 0 examples/promoters.fa
ended 3
printed_nothing
said "(refusal 9)"

begin "standard output closed"
timeout 100 ./tulfasheq "$@" >&- 2>"$work/err" || status=$?
ended 4
said_one_line

# A folder of commands without rt and cargo.
mkdir "$work/bin"
for tool in sh dirname readlink find sha256sum sort sed cat; do ln -s "$(command -v "$tool")" "$work/bin/$tool"; done

begin "without the kit, what is built"
try env PATH="$work/bin" sh tulfasheq "$@"
ended 0
printed examples/promoters.tsv

begin "called by a shell from its folder, how to go on can be pasted"
try env PATH="$work/bin" sh tulfasheq "$@" --job "$work/job"
ended 0
try env PATH="$work/bin" sh tulfasheq "$@" --job "$work/job"
ended 2
said ": ./tulfasheq resume $work/job goes on with it"

begin "without the kit, where it is to be built"
mv "$mark" "$work/mark"
try env PATH="$work/bin" sh tulfasheq "$@"
mv "$work/mark" "$mark"
ended 1
printed_nothing
said_one_line

begin "without the kit, help where it is to be built"
mv "$mark" "$work/mark"
for command in search resume status places; do
    for words in "help $command" "$command --help" "$command -h"; do
        # shellcheck disable=SC2086
        try env PATH="$work/bin" sh tulfasheq $words
        ended 0
        printed "cli/src/help/$command.txt"
        [ ! -s "$work/err" ] || fail "it says something"
    done
done
try env PATH="$work/bin" sh tulfasheq --help
mv "$work/mark" "$mark"
ended 0
printed cli/src/help/all.txt

begin "where it was changed since"
cp cli/target/release/tulfasheq "$work/built"
echo changed >>cli/target/release/tulfasheq
try ./tulfasheq "$@"
ended 0
printed examples/promoters.tsv
said "building"
cmp -s cli/target/release/tulfasheq "$work/built" || fail "it is not built anew"

# ---- a repository of three crates, with an rt and a prover that say what those say, and a cargo

mkdir -p "$work/small/bin" "$work/small/kit/bin" "$work/small/kit/toolchain/bin" "$work/small/rust" "$work/small/cli"
cp tulfasheq crates.txt "$work/small"
cp rust/library.sh rust/kit.sh "$work/small/rust"
cd "$work/small"
printf '%s\n' '# The crates.' 'rules:' 'exports staticlib: search rules # the last' 'search: rules' 'other: rules' >crates.txt
for crate in rules search exports; do
    mkdir -p "crates/$crate/src"
    echo "// $crate" >"crates/$crate/src/lib.rt"
done
# An archive that is made from what will be proved.
mkdir -p target/host
touch target/host/libtulfasheq.a target/host/stamp

# It is called in the folder of `exports`. What is proved leaves a sum; after each crate that it proves it waits until that was told.
cat >bin/rt <<'END'
#!/bin/sh
case $1 in
version) echo rattle-kit ;;
doc) echo "$HERE/kit/START-HERE.md" ;;
check)
    for crate in rules search exports; do
        proved=$HERE/proved-$crate
        now=$(sha256sum <"$HERE/crates/$crate/src/lib.rt")
        [ "$(cat "$proved" 2>/dev/null)" != "$now" ] || [ "$crate" = exports ] || continue
        if [ "$crate" = "$FAILS" ]; then
            printf '%s\n' "fn $crate::f: no proof" "logic=not-proved" "rt: the library $crate did not build" >&2
            exit 1
        fi
        printf '%s\n' "fn $crate::f: proved" "crate $crate: modules loaded=0 checked=3" "axioms libc: none reached of the 2 declared" \
            "logic=proved functions=1"
        echo "$now" >"$proved"
        tries=0
        until grep -q "$crate proved" "$TOLD"; do
            tries=$((tries + 1))
            [ "$tries" -lt 300 ] || exit 1
            sleep 0.1
        done
    done
    ;;
*) exit 2 ;;
esac
END
cat >kit/bin/rattle <<'END'
#!/bin/sh
[ "$1" = build ] || exit 2
until [ "$1" = -o ]; do shift; done
echo archive >"$2"
END
cat >bin/cargo <<'END'
#!/bin/sh
mkdir -p cli/target/release
printf '%s\n' '#!/bin/sh' 'echo whole' >cli/target/release/tulfasheq
chmod +x cli/target/release/tulfasheq
END
# What it is made of here has no sections to align.
printf '%s\n' '#!/bin/sh' 'exit 0' >bin/objdump
cp bin/objdump bin/objcopy
chmod +x bin/* kit/bin/rattle
echo whole >"$work/whole"

proving() { # CRATE THAT FAILS
    try env PATH="$PWD/bin:$PATH" HERE="$PWD" TOLD="$work/err" FAILS="$1" ./tulfasheq status job
}

# What is said, the seconds left out.
says() {
    sed 's/([0-9]* s)/(N s)/' "$work/err" >"$work/said"
    cmp -s "$work/expected" "$work/said" || fail "it does not say what it should"
}

begin "a proof that fails"
proving search
ended 1
printed_nothing
cat >"$work/expected" <<'END'
tulfasheq: building the program first
rust/library.sh: checking that all of the library is proved (some minutes, the first time): rules search exports
rust/library.sh: rules proved (N s), 2 left: search exports
fn rules::f: proved
crate rules: modules loaded=0 checked=3
axioms libc: none reached of the 2 declared
logic=proved functions=1
fn search::f: no proof
logic=not-proved
rt: the library search did not build
tulfasheq: the library is not proved, and nothing was run
END
says

begin "a proof that goes on, told crate by crate"
proving none
ended 0
printed "$work/whole"
cat >"$work/expected" <<'END'
tulfasheq: building the program first
rust/library.sh: checking that all of the library is proved (some minutes, the first time): rules search exports
rust/library.sh: search proved (N s), 1 left: exports
rust/library.sh: exports proved (N s), 0 left
target/host/libtulfasheq.a: the proved crate exports, for MACHINE
END
sed -i "s/MACHINE/$(uname -m)/" "$work/expected"
says

begin "where nothing is to be proved"
rm "$mark"
proving none
ended 0
printed "$work/whole"
said_one_line
said "building"

begin "where a file is not the one that was proved"
rm "$mark"
echo '// changed' >>crates/search/src/lib.rt
proving none
ended 0
said "checking that all of the library is proved"
said "rust/library.sh: search proved ("

cd "$OLDPWD"
echo "tests/tulfasheq.sh: $cases cases hold"
