#!/usr/bin/env bash
# The second implementation's own tests, the proved library compared with it, and what it writes for this repository unchanged:
# the sample sessions with their listings, and the examples.
set -euo pipefail
top=$(cd "$(dirname "${BASH_SOURCE[0]}")/.." && pwd)
work=$(mktemp -d)
trap 'rm -rf "$work"' EXIT

cd "$top/second"
programs=$top/target/second/release
cargo build --release --offline --quiet --bin sessions --bin listings --bin write-examples &
building=$!
"$top/tests/staticlib.sh" >"$work/log" 2>&1 || { tail -n 20 "$work/log" >&2; exit 1; }
wait "$building"
cargo test --release --offline --color never --lib --test '*' >"$work/log" 2>&1 || { cat "$work/log" >&2; exit 1; }
# A line for each file of tests: where it is and how its tests ended.
awk '$1 == "Running" { file = $2 == "unittests" ? $3 : $2 }
    /^test result: / { sub(/; 0 ignored.*/, ""); sub(/^test result: /, ""); print "second: " file ": " $0 }' "$work/log"
"$programs/sessions" | cmp - "$top/crates/simulate_all/stdin"
"$programs/listings" <"$top/crates/simulate_all/stdin" | cmp - "$top/crates/simulate_all/stdout"
mkdir "$work/examples"
"$programs/write-examples" "$work/examples"
for file in "$work"/examples/*; do
    cmp "$file" "$top/examples/$(basename "$file")"
done
echo "second: the proved library and the second implementation agree"
