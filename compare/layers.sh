# For compare/run, compare/replays and bench/run, with their arguments: goes to the repository's folder, and sets `layers` and `reference`.
# Ends the script where the default folder of the reference isn't there; one that is named has to be.
# shellcheck shell=bash
reference=${1:-}
if [ -n "$reference" ]; then
  [ -d "$reference" ] || { echo "no reference at $reference" >&2; exit 2; }
  reference=$(realpath "$reference")
fi
cd "$(dirname "$0")/.."
# Layer L has compare/L.rs, bench/L.rs and crates/L_replay.
# shellcheck disable=SC2034
layers="packet timing channel arq"
if [ -z "$reference" ]; then
  reference=../shared/docs/src
  [ -d "$reference" ] || { echo "no reference at $reference; nothing compared"; exit 0; }
fi
command -v rustc >/dev/null || { echo "the reference is here, but no rustc to build it" >&2; exit 2; }
