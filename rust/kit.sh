# What .ci/run, .ci/assumed.sh and rust/library.sh share: which crates a crate is made of, whether the libraries that lie in out/ are those
# that rt ci has just proved, and the kit's prover over them. They source it, in the repository's folder.
# shellcheck shell=sh

# The crates of crates.txt, and those that a crate is made of and itself, each behind those that it builds on.
all_crates() {
    sed -n 's/^\([a-z][a-z0-9_]*\)[^:#]*:.*/\1/p' crates.txt
}
crates_of() { # NAME
    awk -v name="$1" '
        function tell(crate, i, n, below) {
            if (!(crate in on) || told[crate]++) return
            n = split(on[crate], below, " ")
            for (i = 1; i <= n; i++) tell(below[i])
            print crate
        }
        { sub(/#.*/, "") }
        split($0, side, ":") == 2 { split(side[1], word, " "); on[word[1]] = side[2] }
        END { tell(name) }' crates.txt
}

# The libraries that a crate names in crates.txt; whether it is a static library or a program, both of which link code.
named_by() { # NAME
    awk -v name="$1" '
        { sub(/#.*/, "") }
        split($0, side, ":") == 2 && split(side[1], word, " ") && word[1] == name { print side[2] }' crates.txt
}
is_static() { # NAME
    grep -q "^$1  *staticlib[ :]" crates.txt
}
is_program() { # NAME
    [ -f "crates/$1/src/main.rt" ]
}

# One sum of the kit's name, crates.txt, and every file of these crates but the edits that must fail and what rt made.
sources() { # NAME..
    {
        rt version </dev/null
        cat crates.txt
        for crate; do
            find "crates/$crate" \( -name must-fail -o -path "crates/$crate/out" \) -prune -o -type f -exec sha256sum {} +
        done
    } | LC_ALL=C sort | sha256sum
}

# The same of all crates, and of the libraries as rt left them. The gate puts it in a file once rt ci has passed. Where it still holds, and
# no library is one that rt check made (those have a stamp), each library in out/ is the one that rt ci proved from these sources.
# No other command of rt takes those, and each would prove all of them once more.
as_left() {
    # shellcheck disable=SC2046
    sources $(all_crates)
    find crates/*/out/rlib -type f -exec sha256sum {} + | LC_ALL=C sort | sha256sum
}
just_proved() { # NAME
    [ -f target/run/proved ] || return 1
    for crate in $(crates_of "$1"); do
        [ ! -e "crates/$crate/out/rlib/stamp" ] || return 1
    done
    [ "$(cat target/run/proved)" = "$(as_left)" ]
}

# Calls the prover for a crate with the words that rt calls it with, over the libraries as they lie in out/, and over what it kept of the
# crate itself. They have to be of the present sources: as just_proved says, or since rt check has just passed.
rattle_over() { # check|build NAME FLAG..
    to_do=$1
    name=$2
    shift 2
    kit=$(dirname "$(rt doc)")
    main=src/lib.rt
    ! is_program "$name" || main=src/main.rt
    ! is_static "$name" || set -- "$@" --crate-type staticlib
    set -- "$@" --extern "std=$kit/rlibs/std.rlib" -L "dependency=$kit/rlibs"
    for below in $(named_by "$name"); do
        rlib=$PWD/crates/$below/out/rlib/$below.rlib
        [ -d "crates/$below" ] || rlib=$kit/rlibs/$below.rlib
        set -- "$@" --extern "$below=$rlib"
    done
    for below in $(crates_of "$name"); do
        [ "$below" = "$name" ] || set -- "$@" -L "dependency=$PWD/crates/$below/out/rlib"
    done
    jobs=$(nproc 2>/dev/null || echo 1)
    [ "$jobs" -le 4 ] || jobs=4
    mkdir -p "crates/$name/out"
    (
        cd "crates/$name" || exit
        "$kit/bin/rattle" "$to_do" --crate-name "$name" "$main" "$@" --antt-project "$kit/rattle/logic/antt-project.json" \
            --logic-built "$kit/logic_built" --incremental out/incremental --links "$name=" --jobs "$jobs"
    )
}
