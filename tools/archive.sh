#!/bin/bash
# Builds crates/NAME/out/libNAME.a of a static library NAME of crates.txt, or of NAME_c beside a library NAME, under NAME all the same: by `rt lib`,
# over what checks in this checkout kept.
# `rt lib` doesn't take the libraries that `rt ci` proved, and would prove each of them once more where no check kept any. So --after-ci, which is for
# right after `rt ci`, before any edit, has the compiler prove the exports and build the archive over the libraries as `rt ci` left them.
# usage: bash tools/archive.sh NAME [--after-ci]
set -eu
cd "$(dirname "$0")/.."
archive=$1
name=$archive
grep -q "^${name}_c staticlib *:" crates.txt && name=${name}_c
below=$(sed -n "s/^$name staticlib *: *//p" crates.txt)
[ -n "$below" ] || { echo "archive: crates.txt has no static library $name" >&2; exit 2; }

# Whether the libraries that stand here are those of `rt ci`: one of a check has a stamp beside it.
are_of_ci() {
  for library in $below; do
    [ -f "crates/$library/out/rlib/$library.rlib/format" ] && [ ! -e "crates/$library/out/rlib/stamp" ] || return 1
  done
}

build_over_ci() {
  local kit library words=()
  kit=$(dirname "$(rt doc)")
  for library in $below; do
    words+=(--extern "$library=$PWD/crates/$library/out/rlib/$library.rlib")
  done
  for library in crates/*/out/rlib; do
    words+=(-L "dependency=$PWD/$library")
  done
  cd "crates/$name"
  mkdir -p out
  "$kit/bin/rattle" build --crate-name "$name" src/lib.rt --crate-type staticlib --extern "std=$kit/rlibs/std.rlib" -L "dependency=$kit/rlibs" "${words[@]}" \
    --antt-project "$kit/rattle/logic/antt-project.json" --logic-built "$kit/logic_built" --links "$name=" --jobs 2 \
    --toolchain "$kit/toolchain" --backend llvm -o "out/lib$name.a" </dev/null
}

# To the archive's place, where the crate that it is built of has another name.
place() {
  [ "$name" = "$archive" ] || cp "crates/$name/out/lib$name.a" "crates/$archive/out/lib$archive.a"
}

if [ "${2:-}" = --after-ci ] && are_of_ci; then
  if (build_over_ci); then
    place
    exit 0
  fi
  echo "archive: not built over what rt ci left, so by rt lib"
fi
(cd "crates/$name" && rt lib </dev/null)
place
