#!/usr/bin/env bash
# Times the proved page key against the plain loop in C, in one run, and prints the ratio for pages of 64 and 4,096 bytes.
set -euo pipefail
cd "$(dirname "$0")/.."
(cd crates/page_key_c && rt lib >/dev/null)
mkdir -p target/staticlib
cp crates/page_key_c/out/libpage_key_c.a target/staticlib/libpage_key.a
cc -O3 bench/page_key.c target/staticlib/libpage_key.a -o target/bench_page_key
target/bench_page_key
