# Part of the launcher, in the repository alone: sees to it that the library is there and as new as what it is made of.
# Takes `home` from it.
made=$home/target/lib/libcundvrest.a
if ! [ -f "$made" ] || ! [ -f "$home/target/lib/libcundvrest.so" ] ||
    [ -n "$(find "$home/library" "$home/crates.txt" "$home/VERSION" "$home/include" "$home"/crates/*/src \
        "$home"/crates/*/specs -newer "$made" -print)" ]; then
    echo 'cundvrest: proving and building the library; the first time this takes some minutes' >&2
    "$home/library" || exit 2
fi
