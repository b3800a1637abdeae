# Sourced by the other scripts: goes to the repository's top and sees that the Rattle kit is there.
called_from=$PWD
cd "$(dirname "$0")/.." || exit 1
command -v rt >/dev/null 2>&1 || PATH=$PATH:/opt/rattle/bin
command -v rt >/dev/null 2>&1 || {
    echo "Willowblink needs the Rattle kit: its command rt is neither on PATH nor in /opt/rattle/bin" >&2
    exit 2
}

# Runs a command whose words are of interest only where it fails.
quietly() { # COMMAND...
    heard=$(mktemp)
    if ! "$@" >"$heard" 2>&1; then
        cat "$heard" >&2
        rm -f "$heard"
        return 1
    fi
    rm -f "$heard"
}

# Whether what rt built is there, and no file of the crates that it may be made of is newer.
is_fresh() { # FILE
    [ -f "$1" ] && [ -z "$(find crates.txt crates/*/src crates/*/specs crates/*/proofs -newer "$1" | head -n 1)" ]
}

# Has rt prove and build what a crate makes, crates/NAME/out/FILE, where that is still to be done, one script at a time
# where there is a flock: two would take each other's unfinished proofs for failed. Dates it by when this began: rt
# leaves its date alone where only dates or other crates changed, and it would be taken for out of date for ever.
build() { # run|lib NAME FILE
    made=crates/$2/out/$3
    if is_fresh "$made"; then return; fi
    begun=$(mktemp)
    built=0
    alone=
    if command -v flock >/dev/null 2>&1; then alone='flock ../../crates.txt'; fi
    # shellcheck disable=SC2086
    { (cd "crates/$2" && quietly $alone rt "$1" </dev/null) && touch -r "$begun" "$made"; } || built=1
    rm -f "$begun"
    return $built
}

# Proves and builds a program where that is still to be done. rt ci leaves it built too.
build_program() { # NAME
    build run "$1" "$1"
}

# A path as it was said where the script was called.
absolute() { # PATH
    case $1 in /* | '') printf '%s' "$1" ;; *) printf '%s' "$called_from/$1" ;; esac
}

# Sets archive to the one that ARCHIVE names, or to the library's own, proved and built where that is still to be done;
# prints nothing unless it fails.
find_archive() {
    archive=$(absolute "${ARCHIVE:-}")
    if [ -z "$archive" ]; then
        build lib face_c libface_c.a || return 1
        archive=$PWD/crates/face_c/out/libface_c.a
    fi
    [ -f "$archive" ] || {
        echo "${0##*/}: there is no $archive" >&2
        return 1
    }
}

# Runs a built program; with a COMMAND runs that instead, and gives it the word that runs the program.
program() { # NAME [COMMAND...]
    binary=crates/$1/out/$1
    shift
    "$@" "$binary"
}

# Says in words what is wrong in the text on standard input, at the place that a refusal gives.
explain() { # sheet|engines NUMBER LINE BYTE
    LC_ALL=C od -An -v -tu1 |
        LC_ALL=C awk -v text="$1" -v number="$2" -v line="$3" -v byte="$4" -f scripts/explain.awk
}
