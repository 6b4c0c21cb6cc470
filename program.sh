# What the commands at the top of the repository share; they source it. `name` is the command's, `top` the repository, `program` its crate.

fail() {
    echo "$name: $1" >&2
    exit 2
}

misused() {
    echo "$name: $1" >&2
    usage >&2
    exit 2
}

readable() {
    [ -f "$1" ] || fail "no such file: $1"
    [ -r "$1" ] || fail "cannot be read: $1"
}

# Proves and builds the program on first use, and again when the sources have changed.
build() {
    binary=$top/crates/$program/out/$program
    if [ ! -x "$binary" ] || [ -n "$(find "$top/crates" "$top/crates.txt" -name out -prune -o -type f -newer "$binary" -print | head -n 1)" ]; then
        PATH=$PATH:/opt/rattle/bin
        command -v rt >/dev/null || fail "the Rattle kit is not installed: no rt on the path or in /opt/rattle/bin"
        echo "$name: proving and building the program; this takes some minutes" >&2
        log=$(mktemp)
        (cd "$top/crates/$program" && rt run) </dev/null >"$log" 2>&1 || {
            tail -n 20 "$log" >&2
            rm "$log"
            fail "the program was not proved"
        }
        rm "$log"
        touch "$binary"
    fi
}

# Runs a program. A refusal has no status of its own, so what it says on standard error tells too; its output goes out only when it is whole.
run_whole() {
    work=$(mktemp -d)
    trap 'rm -rf "$work"' EXIT
    status=0
    "$@" >"$work/out" 2>"$work/err" || status=$?
    if [ -s "$work/err" ] || [ "$status" -ne 0 ]; then
        cat "$work/err" >&2
        exit 1
    fi
    cat "$work/out"
}
