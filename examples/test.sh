#!/bin/bash
# The host interface from C, C++ and Rust: the header alone by each compiler that is here, its calls beside the archive's
# symbols, calls.c and exports.c, the example by each protocol, the Rust tests, and both fuzz drivers.
# usage: bash examples/test.sh [--after-ci] [FUZZ_CALLS]      builds crates/pindrelo/out/libpindrelo.a by tools/archive.sh
set -eu
cd "$(dirname "$0")/.."
after_ci=
if [ "${1:-}" = --after-ci ]; then
  after_ci=$1
  shift
fi
fuzz_calls=${1:-1000000}
library=crates/pindrelo/out/libpindrelo.a
out=target/host
strict="-Wall -Wextra -Werror -pedantic -Iinclude"
have() { command -v "$1" >/dev/null || { echo "host: no $1 here: $2 not tested"; return 1; }; }

rm -rf "$out"
mkdir -p "$out"
# shellcheck disable=SC2086
bash tools/archive.sh pindrelo $after_ci >"$out/archive.log" 2>&1 || { tail -5 "$out/archive.log"; echo "host: no $library" >&2; exit 1; }

echo '#include "pindrelo.h"' >"$out/header.c"
cp "$out/header.c" "$out/header.cpp"
for compiler in gcc clang; do
  # shellcheck disable=SC2086
  have "$compiler" "the header by it" && "$compiler" -std=c99 $strict -c "$out/header.c" -o "$out/header.o"
done
for compiler in g++ clang++; do
  # shellcheck disable=SC2086
  have "$compiler" "the header by it" && "$compiler" -std=c++11 $strict -c "$out/header.cpp" -o "$out/header.o"
done

if have rustc "the Rust wrapper"; then
  rustc --edition 2021 -O --test rust/tests.rs -L native=crates/pindrelo/out -l static=pindrelo -o "$out/rust_tests"
  "$out/rust_tests" -q >"$out/rust.log" 2>&1 || { cat "$out/rust.log"; exit 1; }
  echo "host: the Rust tests pass"
fi

have cc "the calls from C" || exit 0
nm -g "$library" 2>/dev/null | sed -n 's/.* T \(.*\)$/\1/p' | sort >"$out/exported"
sed -n 's/^pindrelo_answer \(pindrelo_[a-z_]*\)(.*/\1/p' include/pindrelo.h | sort >"$out/declared"
diff "$out/exported" "$out/declared" || { echo "host: exports (<) and header (>) differ" >&2; exit 1; }
while read -r call; do
  grep -q "$call(" examples/fuzz/*.[ch] || { echo "host: $call isn't fuzzed" >&2; exit 1; }
done <"$out/exported"
# shellcheck disable=SC2086
for test in calls exports; do
  cc -std=c99 $strict "examples/$test.c" "$library" -o "$out/$test"
  "$out/$test"
done
bash examples/run.sh 60000 >"$out/run.log" 2>&1 || { cat "$out/run.log"; exit 1; }
grep ^protocol "$out/run.log"
sanitize=-fsanitize=address
echo 'int main(void) { return 0; }' >"$out/empty.c"
cc $sanitize "$out/empty.c" -o "$out/empty" 2>/dev/null || { sanitize=; echo "host: fuzz without the address sanitizer"; }
# shellcheck disable=SC2086
cc -std=c11 -O1 -g $sanitize $strict examples/fuzz/fuzz.c "$library" -o "$out/fuzz"
"$out/fuzz" "$fuzz_calls"
# shellcheck disable=SC2086
cc -std=c11 -O1 -g $sanitize $strict examples/fuzz/runs.c "$library" -o "$out/runs"
"$out/runs" $((fuzz_calls / 50))
