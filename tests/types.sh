#!/usr/bin/env bash
# The compiler rejects a password set where a zone is asked and a zone where a password set is asked, as an argument and as a
# result. A type error never reaches the prover, so this is no must-fail edit: a scratch crate over `access` is checked, once with
# the right types and then with one wrong type at a time.
set -euo pipefail
top=$(cd "$(dirname "${BASH_SOURCE[0]}")/.." && pwd)
work=$(mktemp -d)
trap 'rm -rf "$work"' EXIT
mkdir -p "$work/crates/scratch/src"
needed="$(sed -n 's/^access: *//p' "$top/crates.txt") access"
for crate in $needed; do
    mkdir "$work/crates/$crate"
    for part in src specs proofs; do
        [ ! -d "$top/crates/$crate/$part" ] || cp -R "$top/crates/$crate/$part" "$work/crates/$crate/"
    done
    grep "^$crate:" "$top/crates.txt" >>"$work/crates.txt"
done
echo "scratch: $needed" >>"$work/crates.txt"
cat >"$work/right" <<'END'
#![tactic(auto)]

use access::volatile::{PwSet, Volatile, Zone};

fn number(set: PwSet) -> u8 {
    set.0
}

pub fn select(state: Volatile, given: Zone) -> Volatile {
    state.selecting(given)
}

pub fn number_of(given: PwSet) -> u8 {
    number(given)
}

pub fn zone_of(state: Volatile) -> Zone {
    state.zone
}

pub fn set_of(register: u8) -> PwSet {
    let fields = access::register::fields(register);
    fields.set
}
END

fail() {
    echo "types: $1" >&2
    tail -n 5 "$work/log" >&2
    exit 1
}

check() { # EDIT: the scratch crate with this edit of its right types
    sed "$1" "$work/right" >"$work/crates/scratch/src/lib.rt"
    (cd "$work/crates/scratch" && rt check) >"$work/log" 2>&1
}

refused() { # FUNCTION RIGHT WRONG ERROR: the function with another type in its header
    ! check "/^pub fn $1(/s/$2/$3/" || fail "$1 is taken with $3 for $2"
    grep -q "error\[mismatched-types\]: $4" "$work/log" || fail "$1 with $3 for $2 is not refused for its type"
}

check '' || fail "the right types are refused"
refused select Zone PwSet 'expected .Zone., found .PwSet.'
refused number_of PwSet Zone 'expected .PwSet., found .Zone.'
refused zone_of Zone PwSet 'expected .PwSet., found .Zone.'
refused set_of PwSet Zone 'expected .Zone., found .PwSet.'
echo "types: a password set for a zone and a zone for a password set are refused by the compiler, as argument and as result"
