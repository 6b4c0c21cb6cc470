#!/usr/bin/env bash
# The program as the box runs sessions, `simulate --box`, at the edges of what the box takes and beyond them, against the second
# implementation's listings; and each of those sessions as an exam machine runs it. Then what the command was wrongly called with, and the
# program called with other arguments.
test_name=box
. "$(dirname "${BASH_SOURCE[0]}")/listings.sh"

alike() { # NAME, BYTES of the session; LINES, BYTES and END.., the last lines, of its one listing
    edge --box "$@"
    edge "$@"
}

refused() { # NAME BYTES NUMBER NUMBER: refused by the box, and by an exam machine
    edge --box "$1" "$2" 1 $((9 + ${#3})) "refused $3"
    edge "$1" "$2" 1 $((9 + ${#4})) "refused $4"
}

full='tries 8 8 8 8 8 8 8 8 8 8 8 8 8 8 8 8 8'
begun='tries 8 8 8 8 8 8 8 8 8 8 8 8 8 8 8 8 7'

# 64 records of all kinds in 4,096 bytes; as many, most met while busy; 64 reads of a whole zone, which give the longest listing of the box.
alike least 2197 2 49 "$full" 'fuses 07'
alike box-greatest 4096 66 633 "$begun" 'fuses 07'
alike box-busy-greatest 4096 66 432 "$full" 'fuses 07'
alike box-longest-listing 2389 66 49575 "$full" 'fuses 07'
# The first of these with a byte, a record, and both more; then as many records and bytes as an exam machine takes.
edge --box box-byte-more 4097 1 11 'refused 18'
edge box-byte-more 4097 66 633 "$begun" 'fuses 07'
edge --box box-record-more 4096 1 11 'refused 18'
edge box-record-more 4096 67 639 "$begun" 'fuses 07'
edge --box box-both-more 4097 1 11 'refused 18'
edge box-both-more 4097 67 639 "$begun" 'fuses 07'
edge --box box-4096-records 6293 1 11 'refused 18'
edge box-4096-records 6293 4098 43995 "$full" 'fuses 07'
edge --box greatest 65536 1 11 'refused 18'
# What is judged before: the session's length, its mark, its start and its count.
refused empty 0 1 1
refused below-least 2196 1 1
refused byte-more 65537 1 1
refused box-mark 2435 2 2
refused box-mark-and-more 2436 2 2
refused box-start 2435 3 3
refused box-start-and-more 2436 3 3
refused box-4097-records 6294 4 4
refused record-more 65536 4 4
# What is judged behind: the card, the records, what is left of them, the log's space. With a record or a byte more than the box takes it is 18.
refused box-fuses 2435 5 5
refused box-fuses-and-more 2436 18 5
refused box-byte-more-fuses 4097 18 5
refused box-flag 2435 16 16
refused box-flag-and-more 2436 18 16
refused box-kind 2435 6 6
refused box-kind-and-more 2436 18 6
refused box-field 2436 7 7
refused box-field-and-more 2437 18 7
refused box-cut-short 2435 8 8
refused box-cut-short-and-more 2436 18 8
refused box-bytes-left 2436 9 9
refused box-bytes-left-and-more 2437 18 9
refused log-byte-more 65536 18 10

called 0 --help
grep -q -e --box out || fail "the usage does not tell of --box"
misused --box --box
misused --box --box least.session
misused --box least.session box-greatest.session
misused least.session --box
misused --box -x
misused --box --no-such-option least.session
called 2 --box no-such-file
[ ! -s out ] || fail "a missing file: something on standard output"

program=$top/crates/simulate/out/simulate
"$program" --box <box-record-more.session | cmp - box-record-more.box.txt >&2 || fail "the program with --box differs"
for argument in -x --bo --boxx -box box --BOX ' --box' ''; do
    "$program" "$argument" <box-record-more.session | cmp - box-record-more.txt >&2 || fail "the program with the argument '$argument' differs"
done
echo "box: the program and the second implementation agree at the edges of the box and beyond them"
