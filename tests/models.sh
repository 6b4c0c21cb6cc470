#!/usr/bin/env bash
# Wrong models, each of which must be refused, while the model's definitions are still proved. A file tests/models/NAME.edit changes crate `model`
# (and where a law has to follow, that law) and names the crate that refuses it: where that is one of the computed tables, also the table, and
# then there is no other one, and the error must stand in it.
# Lines of an edit: 'refused-by: CRATE', 'table: NAME' where the crate has tables, 'file: PATH' below crates/, and 'old:' and 'new:' pairs, each
# old text unique.
set -euo pipefail
top=$(cd "$(dirname "${BASH_SOURCE[0]}")/.." && pwd)
work=$(mktemp -d)
trap 'rm -rf "$work"' EXIT

replace() { # FILE OLD NEW
    OLD=$2 NEW=$3 awk '
        { text = text $0 "\n" }
        END {
            at = index(text, ENVIRON["OLD"])
            rest = substr(text, at + length(ENVIRON["OLD"]))
            if (!at || index(rest, ENVIRON["OLD"])) exit 3
            printf "%s%s%s", substr(text, 1, at - 1), ENVIRON["NEW"], rest
        }' "$1" >"$1.edited" || { echo "models: the old text is not once in ${1#"$work"/}" >&2; return 1; }
    mv "$1.edited" "$1"
}

# The crates that CRATE needs and itself, with no computed table but TABLE.
copy() { # ROOM CRATE TABLE
    local crate part file table
    for crate in $(sed -n "s/^$2: *//p" "$top/crates.txt") "$2"; do
        mkdir "$1/crates/$crate"
        for part in src specs proofs; do
            [ ! -d "$top/crates/$crate/$part" ] || cp -R "$top/crates/$crate/$part" "$1/crates/$crate/"
        done
        grep "^$crate:" "$top/crates.txt" >>"$1/crates.txt"
    done
    [ -n "$3" ] || return 0
    # the tables cite `Computed`
    for file in $(grep -l 'specs\.Computed\.{computed}' "$1"/crates/*/specs/*.antt); do
        table=$(basename "$file" .antt)
        [ "$table" != "$3" ] || continue
        rm "$file"
        replace "$(dirname "$file")/Lib.antt" "pub mod $table"$'\n' ''
    done
}

# Whether the log says that CRATE itself is refused, so that all it needs is proved, and of a table's crate nothing but that table.
refused() { # LOG CRATE TABLE
    [ "$(grep -A 1 "^crate $2: " "$1" | tail -n 1)" = logic=not-proved ] || return 1
    [ "$(grep -c '^logic=not-proved' "$1")" -eq 1 ] || return 1
    grep -q '^\./[^ ]*: error' "$1" || return 1
    [ -n "$3" ] || return 0
    ! grep -o '^[^ ]*: error' "$1" | grep -qv "^\./specs/$3\.antt:"
}

try() { # EDIT
    local name room by table file='' line old=''
    name=$(basename "$1" .edit)
    room=$work/$name
    mkdir -p "$room/crates"
    by=$(sed -n 's/^refused-by: //p' "$1")
    table=$(sed -n 's/^table: //p' "$1")
    copy "$room" "$by" "$table"
    while IFS= read -r line; do
        case $line in
        'file: '*) file=$room/crates/${line#file: } ;;
        'old: '*) old=${line#old: } ;;
        'new: '*) replace "$file" "$old" "${line#new: }" ;;
        esac
    done <"$1"
    (cd "$room/crates/$by" && rt check) >"$room/log" 2>&1 || true
    cp "$room/log" "$work/$name.log"
    rm -rf "$room"
    if refused "$work/$name.log" "$by" "$table"; then
        echo "models: $name: refused, as it must be (first at crates/$by/$(grep -m 1 -o '^\./[^ ]*: error: .[^`]*' "$work/$name.log" | sed 's/^\.\///; s/: error: `/ /'))"
    else
        echo "models: $name: NOT REFUSED by $by${table:+, table $table}"
        tail -n 5 "$work/$name.log"
        return 1
    fi
}

# As many at a time as there are processors; what each says stays together.
edits=("$top"/tests/models/*.edit)
many=$(nproc)
status=0
for ((i = 0; i < ${#edits[@]}; i += many)); do
    pids=()
    for edit in "${edits[@]:i:many}"; do
        try "$edit" >"$work/$(basename "$edit").said" 2>&1 &
        pids+=($!)
    done
    for pid in "${pids[@]}"; do
        wait "$pid" || status=1
    done
    for edit in "${edits[@]:i:many}"; do
        cat "$work/$(basename "$edit").said"
    done
done
exit $status
