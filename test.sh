#!/usr/bin/env bash
# All tests: the layout, proofs, must-fail edits and programs by `rt ci`; then the host interface from C, C++ and Rust, over what is proved; then the
# replays' answers beside the running Rust's where it is at hand. The last line is that of rt ci.
# usage: bash test.sh [REFERENCE_FOLDER]      default: ../shared/docs/src, passed over where it isn't there
set -euo pipefail
command -v rt >/dev/null || { echo "test.sh: the Rattle kit's command rt is not on the PATH" >&2; exit 2; }
if [ $# -gt 0 ]; then
  set -- "$(realpath "$1")"
fi
cd "$(dirname "$0")"
verdict=$(mktemp)
trap 'rm -f "$verdict"' EXIT
rt ci </dev/null | tee "$verdict"
# An edit that says nothing, since it can't be applied or read, fails nothing of rt ci.
if grep '^rt: ok' "$verdict" | grep -Eq ', [1-9][0-9]* bad'; then
  echo "test.sh: FAILED: bad must-fail edits, told of above" >&2
  exit 1
fi
bash examples/test.sh --after-ci
bash compare/replays "$@"
tail -n 1 "$verdict"
