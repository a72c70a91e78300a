#!/bin/bash
# Builds a Rust program over the reference that compare/reference.sh built.
# usage: compare/build.sh OUT_FOLDER PROGRAM.rs [WORDS_FOR_RUSTC..]
set -eu
out=$1 program=$2
shift 2
rustc -O --edition 2021 --extern reference="$out/libreference.rlib" --extern rand="$out/librand.rlib" -L dependency="$out" "$@" -o "$out/$(basename "$program" .rs)" "$program"
