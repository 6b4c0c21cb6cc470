#!/usr/bin/env bash
# Proves the exported functions and writes target/staticlib/libexports.a, which C programs and second/ link.
set -euo pipefail
top=$(cd "$(dirname "${BASH_SOURCE[0]}")/.." && pwd)
(cd "$top/crates/exports" && rt lib)
mkdir -p "$top/target/staticlib"
cp "$top/crates/exports/out/libexports.a" "$top/target/staticlib/"
