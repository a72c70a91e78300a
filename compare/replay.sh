# For compare/replays and compare/run: a replay program, compiled but not proved, on cases that the running Rust makes.
# shellcheck shell=bash

# The maker of cases, built without the exports: it calls none of them. No list is made yet.
prepare() { # OUT LAYER
  bash compare/build.sh "$1" "compare/$2.rs" -C relro-level=off -C link-args=-Wl,--unresolved-symbols=ignore-all,-z,lazy
  rm -rf "$1/$2.cases"
  mkdir -p "$1/$2.cases"
}

# Makes a list of cases by the MODE of compare/LAYER.rs, --sample or --list, for compare_lists. What the maker says of it goes to OUT/LAYER.made.
make_list() { # OUT LAYER MODE SEED
  "$1/$2" "$3" "$1/$2.list" "$4" >"$1/$2.made"
  mv "$1/$2.list/stdin" "$1/$2.cases/$4"
  mv "$1/$2.list/stdout" "$1/$2.cases/$4.stdout"
}

# Compares the replay's answers with those of the lists that were made since the last time, and removes the lists.
# On a busy machine a program may be stopped by its time limit, which says nothing of its answers: it is then run again, three times in all.
compare_lists() { # OUT LAYER
  local try cases made status
  cases=$(realpath "$1/$2.cases")
  made=$(find "$cases" -name '*.stdout' | wc -l)
  for try in 1 2 3; do
    # The interpreter gives up on long lists: the compiled program decides.
    status=0
    (cd "crates/$2_replay" && rt try --seconds 120 --cases "$cases" </dev/null) >"$1/$2.log" 2>&1 || status=$?
    if [ "$status" -eq 0 ] && [ "$made" -gt 0 ] && [ "$(grep -c '^case=.* run=ended status=0 .* output=expected' "$1/$2.log")" -eq "$made" ]; then
      rm "$cases"/*
      return
    fi
    # Of more wrongs than one the status is the lowest: 6 says that nothing else is wrong than that no answer came.
    [ "$status" -eq 6 ] || break
  done
  # Without what the program wrote.
  grep -v '^| ' "$1/$2.log" | cut -c 1-600
  echo "$2_replay: other answers than the Rust's on the cases of the seeds above, or none within the time limit (try $try)" >&2
  return 1
}
