#!/usr/bin/env bash
# The program that writes sessions, against the second implementation's: the same session, or the same refusal and nothing written, at the
# edges of every part and beyond them. Then what it says of itself, and what it was wrongly called with.
name=write-session
. "$(dirname "${BASH_SOURCE[0]}")/program.sh"
built "$name"

accepted() { # CARD RECORDS COUNT [TITLE]
    called 0 "$@"
    [ ! -s err ] || fail "${*:1:3}: something on standard error"
    "$second" "$@" | cmp - out || fail "${*:1:3}: the two programs differ"
}

refused() { # NUMBER CARD RECORDS COUNT [TITLE]
    called 1 "${@:2}"
    [ ! -s out ] || fail "${*:2:3}: something was written"
    grep -q "^write-session: refused $1: [a-z]" err || fail "${*:2:3}: '$(cat err)', not a refusal $1 with its meaning"
    [ "$("$second" "${@:2}" 2>&1 >/dev/null)" = "refused $1" ] || fail "${*:2:3}: the second implementation does not refuse with $1"
}

cp "$top/examples/written.card" card
head -c 2176 card >short-card
(cat card && printf x) >long-card
(head -c 2176 card && printf '\005\000' && tail -c 11 card) >five-card
(head -c 2177 card && printf '\000' && tail -c 11 card) >sixteen-card
: >none
printf '\010\003\005' >two
printf '\010\377' >unknown
printf '\003\010' >field
printf '\010\003' >cut
many 4096 010 >most
many 4097 010 >more
# With a card, a trailer and no title 63,339 bytes of records are the most.
many 63339 010 >longest
many 63340 010 >too-long
title=$(many 255 101)

accepted card none 0
accepted card two 2
accepted card two 2 ''
accepted card two 2 'A title'
accepted card two 002 "$title"
accepted card most 4096 "$title"
refused 11 short-card none 0
refused 11 long-card unknown 5000 "$title$title"
refused 1 five-card too-long 5000
refused 1 card none 0 "$(many 70000 101)"
refused 1 card longest 63339 A
refused 4 five-card longest 63339
refused 4 five-card more 4097 "$title$title"
refused 4 card none 65536
refused 4 card none 18446744073709551615
refused 5 five-card unknown 2 "$title$title"
refused 16 sixteen-card unknown 2 "$title$title"
refused 15 card unknown 2 "${title}A"
refused 6 card unknown 2 "$title"
refused 7 card field 1
refused 8 card cut 2
refused 8 card two 3
refused 9 card two 1
refused 9 card longest 4096

accepted "$top/examples/written.card" "$top/examples/written.records" 9 "At F = 6 write password 7 lets a note into zone 3; it is polled for and read back."
cmp out "$top/examples/written.session" || fail "the example is not as stored"

# A session that cannot go out whole is no success, nor one that the program cannot write.
"$top/write-session" card two 2 >/dev/full 2>err && fail "a full device: status 0"
"$top/crates/write_session/out/write_session" card two 2 >/dev/full 2>err
grep -q '^standard output: ' err || fail "a full device: the program says '$(cat err)'"

options
called 2 card two
called 2 card two 2 A B
called 2 card two ''
called 2 card two 2x
called 2 card two 100000000000000000000
called 2 no-such-card two 2
called 2 card no-such-records 2
[ ! -s out ] || fail "something was written"
echo "write-session: the program and the second implementation's agree at the edges and beyond them"
