#!/usr/bin/env bash
# The program that mends sessions, against the second implementation's: the same session, or the same refusal and nothing written, at the
# edges and beyond them; the file is left as it is. Then the stored example, what the program says of itself, and what it was wrongly
# called with.
name=mend
. "$(dirname "${BASH_SOURCE[0]}")/program.sh"
built "$name"

on() { # STATUS FILE: the same, and the file is kept
    cp "$2" before
    called "$@"
    cmp "$2" before >&2 || fail "$2: the file was changed"
}

accepted() { # FILE START COUNT
    local a b c d e f mark
    on 0 "$1"
    [ ! -s err ] || fail "$1: something on standard error"
    "$second" "$1" | cmp - out >&2 || fail "$1: the two programs differ"
    read -r a b c d e f mark < <(tail -c 8 out | od -An -v -t u1 | tr -s ' ')
    [ "$((a + 256 * (b + 256 * (c + 256 * d)))) $((e + 256 * f))" = "$2 $3" ] || fail "$1: start and count are not $2 and $3"
    [ "$mark" = '83 69' ] || fail "$1: the mark is $mark"
    cmp <(head -c -8 out) <(head -c -8 "$1") >&2 || fail "$1: more than the trailer was changed"
    # A session that was mended is mended no further.
    mv out mended
    called 0 mended
    cmp out mended >&2 || fail "$1: mended again it is another"
}

refused() { # NUMBER FILE
    on 1 "$2"
    [ ! -s out ] || fail "$2: something was written"
    grep -q "^mend: refused $1: [a-z]" err || fail "$2: '$(cat err)', not a refusal $1 with its meaning"
    [ "$("$second" "$2" 2>&1 >/dev/null)" = "refused $1" ] || fail "$2: the second implementation does not refuse with $1"
}

card=$top/examples/written.card
[ "$(wc -c <"$card")" -eq 2189 ] || fail "the card has not 2,189 bytes"
(head -c 2176 "$card" && printf '\005' && tail -c 12 "$card") >five-card
(head -c 2177 "$card" && printf '\000' && tail -c 11 "$card") >sixteen-card
(head -c 2176 "$card" && printf '\005\000' && tail -c 11 "$card") >both-card

copy() { # FILE CARD: what is piped in, behind a card and before a wrong trailer
    (cat "$2" - && printf '\1\2\3\4\5\6\7\10') >"$1"
}

printf '\010' | copy one "$card"
printf 'A title\010\003\005' | copy two "$card"
# A newline is the kind of a password: the title's last byte takes the first two records.
printf 'A title\n\010\006\070\002\016' | copy newline "$card"
many 4096 010 | copy most "$card"
many 4097 010 | copy more "$card"
(many 63338 040 && printf '\010') | copy longest "$card"
many 63339 010 | copy slowest "$card"
: >empty
head -c 2196 one >short
(many 63339 040 && printf '\010') | copy too-long "$card"
(many 63339 040 && printf '\010') | copy too-long-both both-card
printf '\010' | copy five five-card
printf '\010' | copy sixteen sixteen-card
printf 'none' | copy both both-card
: | copy least "$card"
printf '\010\377' | copy unknown "$card"
many 63339 040 | copy text "$card"
(many 63338 010 && printf '\377') | copy slowest-none "$card"

accepted one 2189 1
accepted two 2196 2
accepted newline 2196 2
accepted most 2189 4096
accepted more 2190 4096
accepted longest 65527 1
accepted slowest 61432 4096
refused 1 empty
refused 1 short
refused 1 too-long
refused 1 too-long-both
refused 5 five
refused 5 both
refused 16 sixteen
refused 17 least
refused 17 unknown
refused 17 text
refused 17 slowest-none

# The example, its listing, and a session that has lost nothing.
on 0 "$top/examples/lost.session"
cmp out "$top/examples/mended.session" >&2 || fail "the example is not as stored"
"$top/simulate" out | cmp - "$top/examples/mended.txt" >&2 || fail "the example's listing is not as stored"
cmp "$top/examples/lost.session" "$top/crates/mend/stdin" >&2 || fail "the program is run on another input than the example"
cmp "$top/examples/mended.session" "$top/crates/mend/stdout" >&2 || fail "the program is run for another output than the example"
on 0 "$top/examples/written.session"
cmp out "$top/examples/written.session" >&2 || fail "a session that has lost nothing was changed"

# A session that cannot go out whole is no success, nor one that the program cannot write.
"$top/mend" two >/dev/full 2>err && fail "a full device: status 0"
"$top/crates/mend/out/mend" <two >/dev/full 2>err
grep -q '^standard output: ' err || fail "a full device: the program says '$(cat err)'"

options
called 2
[ ! -s out ] || fail "no file: something was written"
called 2 one two
[ ! -s out ] || fail "two files: something was written"
called 2 no-such-file
[ ! -s out ] || fail "a missing file: something was written"
called 2 ''
called 2 "$work"
echo "mend: the program and the second implementation's agree at the edges and beyond them"
