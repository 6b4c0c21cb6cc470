# What the tests of the commands share; they source it. `name` is the command's, `test_name` the test's where it is another.
set -euo pipefail
top=$(cd "$(dirname "${BASH_SOURCE[0]}")/.." && pwd)
work=$(mktemp -d)
trap 'rm -rf "$work"' EXIT
cd "$work"

# The program is built first, so that what its command says of that stands in no test.
(program=${name//-/_} && . "$top/program.sh" && build) 2>build || { cat build >&2; exit 1; }

fail() {
    echo "${test_name:-$name}: $1" >&2
    exit 1
}

built() { # PROGRAM: one of the second implementation's; $second is then its path
    (cd "$top/second" && cargo build --release --offline --quiet --bin "$1") || fail "the second implementation's program was not built"
    second=$top/target/second/release/$1
}

called() { # STATUS ARGUMENT..: what it writes is in out and err
    local status=0
    "$top/$name" "${@:2}" </dev/null >out 2>err || status=$?
    [ "$status" -eq "$1" ] || fail "$name ${*:2:3}: status $status, not $1"
}

many() { # COUNT BYTE: a byte, in octal, so many times
    head -c "$1" /dev/zero | tr '\0' "\\$2"
}

misused() { # ARGUMENT..: the usage and status 2
    called 2 "$@"
    grep -q "^usage: $name" err || fail "$*: no usage on standard error"
    [ ! -s out ] || fail "$*: something on standard output"
}

# Help on request, and a usage for an option that there is not.
options() {
    local option
    for option in -h --help; do
        called 0 "$option"
        grep -q "^usage: $name" out || fail "$option: no usage on standard output"
        [ ! -s err ] || fail "$option: something on standard error"
    done
    for option in --no-such-option -x; do
        misused "$option"
    done
}
