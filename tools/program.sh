# Part of the launcher, in the repository alone: whether the program is there and as new as what it is made of, and how
# it is renewed. Takes `home`, `program`, `form` and `fail` from it.
built=$home/target/cundvrest.built

# The mark lists what the program is made of: the code and the contracts of its own crates, each file and each folder.
# It is as old as what was proved: it is made before the check, and kept only if the check passes. A file that is
# added changes its folder's time.
fresh() {
    [ -x "$program" ] && [ -f "$built" ] || return 1
    made=''
    . "$built"
    [ -n "$made" ] || return 1
    for part in $made; do
        [ "$built" -nt "$home/$part" ] || { [ -e "$home/$part" ] && ! [ "$home/$part" -nt "$built" ]; } || return 1
    done
}

build() {
    echo 'cundvrest: proving and building the program; the first time this takes some minutes' >&2
    made=$(
        cd -- "$home/" || exit
        for crate in $(tools/prove --crates cundvrest); do
            for folder in "crates/$crate/src" "crates/$crate/specs"; do
                if [ -d "$folder" ]; then find "$folder"; fi
            done
        done
    )
    printf "made='crates.txt\n%s'\n" "$made" >"$built.new" || fail "cannot write below $home/target"
    "$home/tools/prove" cundvrest || exit 2
    [ -x "$home/crates/cundvrest/out/cundvrest" ] || fail "'rt run' in crates/cundvrest passed and left no program"
    # a copy, since `rt ci` sets aside what is in out/ while it runs
    mkdir -p "$home/target/bin" && cp "$home/crates/cundvrest/out/cundvrest" "$program.new" &&
        mv -f "$program.new" "$program" && mv "$built.new" "$built" || fail "cannot write below $home/target"
}

# renew WORDS..: proves and builds the program, for a question of these words.
renew() {
    # help needs no proof: before the program is there, it is the text in its source
    if [ "$#:${1-}" = 1:help ] && [ ! -x "$program" ]; then
        sed -n '/^ *b"cundvrest: /,$ { /^"/q; s/^ *b"//; p; }' "$home/crates/cundvrest/src/usage.rt" || exit 2
        exit 0
    fi
    [ -n "$form" ] || fail "no such question; right: cundvrest help"
    # One call builds; others that find the program missing or old wait for it. What builds keeps the lock, also where
    # the launcher itself has been ended.
    mkdir -p "$home/target" 2>/dev/null && : 2>/dev/null >>"$home/target/lock" || fail "cannot write below $home/target"
    exec 9>>"$home/target/lock"
    if command -v flock >/dev/null && ! flock -n 9; then
        echo 'cundvrest: waiting for another call that proves' >&2
        flock 9 || fail "cannot lock $home/target/lock"
    fi
    fresh || build
    exec 9>&-
    fresh() { :; } # whatever has changed meanwhile
}
