# What the tests share: a temporary folder, and what is expected of the last run. Sourced by a test of this folder,
# which gets `root`, the repository; `run`, its launcher; `room`, the folder, with what the last run printed in `out`,
# said in `err` and should print in `want`; and `passed`, how many expectations have held.
test=tests/$(basename "$0")
root=$(cd "$(dirname "$0")/.." && pwd -P)
run=$root/cundvrest
room=$(mktemp -d) || exit 2
trap 'rm -rf "$room"' EXIT
passed=0

fail() {
    printf '%s: FAILED: %s\n' "$test" "$1"
    sed 's/^/  /' "$room/out" "$room/err"
    exit 1
}

# expect NAME STATUS: the last run ended so, and standard output is the file `want`.
expect() {
    [ "$ended" -eq "$2" ] || fail "$1: exit $ended, expected $2"
    cmp -s "$room/out" "$room/want" || fail "$1: printed something else"
    passed=$((passed + 1))
}

# told NAME STATUS LINE: the last run ended so, printed just this line and said nothing.
told() {
    printf '%s\n' "$3" >"$room/want"
    [ ! -s "$room/err" ] || fail "$1: a line on standard error"
    expect "$1" "$2"
}

# wrong NAME: the last run ended with 2, printed nothing and said one line on standard error.
wrong() {
    : >"$room/want"
    [ "$(wc -l <"$room/err")" -eq 1 ] || fail "$1: not one line on standard error"
    expect "$1" 2
}

