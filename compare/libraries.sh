#!/bin/bash
# Proves the exports for hosts and those for comparison and benchmark, and builds crates/pindrelo/out/libpindrelo.a and crates/bench_ffi/out/libbench_ffi.a.
# usage: compare/libraries.sh
set -eu
cd "$(dirname "$0")/.."
mkdir -p target
for library in pindrelo bench_ffi; do
  bash tools/archive.sh "$library" >"target/$library.log" 2>&1 || { tail -5 "target/$library.log"; echo "libraries: $library not built"; exit 1; }
done
