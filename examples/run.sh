#!/bin/bash
# The example: a file over UDP on loopback, two processes, by each protocol, with loss, duplication, reordering and flips.
# The file and what the line does come from the seed; the bytes are compared.
# usage: bash examples/run.sh [BYTES [SEED [THOUSANDTHS]]]      after `bash tools/archive.sh pindrelo`
set -u
cd "$(dirname "$0")/.." || exit 2
bytes=${1:-100000} seed=${2:-1} rate=${3:-30}
library=crates/pindrelo/out/libpindrelo.a
[ -f "$library" ] || { echo "run.sh: no $library: bash tools/archive.sh pindrelo" >&2; exit 2; }
d=$(mktemp -d) || exit 2
trap 'rm -rf "$d"' EXIT
cc -std=c11 -O2 -Wall -Wextra -Werror -Iinclude examples/pagelink.c "$library" -o "$d/pagelink" || exit 2
"$d/pagelink" make "$bytes" "$d/in" "seed=$seed" || exit 2
limit=$((30 + bytes * (10 + rate) / 1000000))
failed=0

outcome() { # STATUS
  [ "$1" = 124 ] && echo "ran out of its $limit s" || echo "$1"
}

for protocol in 1 2 3; do
  rm -f "$d/out" "$d/port"
  options="protocol=$protocol window=16 seed=$seed loss=$rate dup=$rate swap=$rate flip=$rate"
  # shellcheck disable=SC2086
  timeout "$limit" "$d/pagelink" receive 0 "$d/out" $options >"$d/port" 2>"$d/receiver" &
  receiver=$!
  while [ ! -s "$d/port" ] && kill -0 "$receiver" 2>/dev/null; do sleep 0.02; done
  # shellcheck disable=SC2086
  timeout "$limit" "$d/pagelink" send "$(cat "$d/port")" "$d/in" $options 2>"$d/sender"
  sent=$?
  wait "$receiver"
  received=$?
  if [ $sent = 0 ] && [ $received = 0 ] && cmp -s "$d/in" "$d/out"; then
    echo "protocol $protocol: $bytes bytes, the same"
  else
    echo "protocol $protocol: FAILED: send $(outcome $sent), receive $(outcome $received); $(cmp "$d/in" "$d/out" 2>&1)"
    failed=1
  fi
  cat "$d/sender" "$d/receiver"
done
exit $failed
