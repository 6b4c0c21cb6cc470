#!/usr/bin/env bash
# Each example's listing is what the program prints, and where there is one of the box, what it prints for the box. Help is printed on
# request; a missing file, an unknown option and a second file get a message and status 2.
name=simulate
test_name=examples
. "$(dirname "${BASH_SOURCE[0]}")/program.sh"

listed() { # SESSION LISTING OPTION..
    "$top/simulate" "${@:3}" "$1" | cmp - "$2"
    "$top/simulate" "${@:3}" <"$1" | cmp - "$2"
}

for session in "$top"/examples/*.session; do
    listed "$session" "${session%.session}.txt"
    [ ! -e "${session%.session}.box.txt" ] || listed "$session" "${session%.session}.box.txt" --box
done
options
called 2 "$top/examples/paper.session" "$top/examples/wrap.session"
called 2 "$top/examples/no-such-file"
echo "examples: every listing is as stored"
