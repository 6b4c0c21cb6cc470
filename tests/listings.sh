# What the tests of `simulate` at the edges share; they source it. The second implementation makes the sessions (second/src/edges.rs) and writes
# the listings of each, an exam machine's and the box's; the program has to print the same, from a file and from a pipe.
name=simulate
. "$(dirname "${BASH_SOURCE[0]}")/program.sh"
built write-edges
"$second" "$work"

edge() { # [--box] NAME, BYTES of the session; LINES, BYTES and END.., the last lines, of its listing
    local box='' session listing sizes end
    [ "$1" != --box ] || { box=--box && shift; }
    session=$1.session listing=$1${box:+.box}.txt
    [ "$(wc -c <"$session")" -eq "$2" ] || fail "$1: the session has $(wc -c <"$session") bytes, not $2"
    "$top/simulate" ${box:+"$box"} "$session" >from-file || fail "$1: the program ended with status $?"
    # shellcheck disable=SC2002
    cat "$session" | "$top/simulate" ${box:+"$box"} >from-pipe || fail "$1: a pipe into the program failed"
    cmp from-file "$listing" >&2 || fail "$1: the program and the second implementation differ"
    cmp from-pipe "$listing" >&2 || fail "$1: the program and the second implementation differ on a pipe"
    sizes=$(wc -lc <"$listing" | awk '{ print $1, $2 }')
    [ "$sizes" = "$3 $4" ] || fail "$1: the listing has $sizes lines and bytes, not $3 $4"
    end=$(tail -n $(($# - 4)) "$listing")
    [ "$end" = "$(printf '%s\n' "${@:5}")" ] || fail "$1: the listing ends in '$end', not '${*:5}'"
}
