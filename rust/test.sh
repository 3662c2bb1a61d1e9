#!/bin/sh
# Runs all Rust tests and says in one line how many passed and failed.
cd "$(dirname "$0")" || exit 2
unset CARGO_TARGET_DIR
log=$(mktemp) || exit 2
tallies='target/tmp/calls.txt target/tmp/drains.txt'
rm -f $tallies
cargo test --release --workspace --no-fail-fast >"$log" 2>&1
status=$?
cat "$log"
# How often each answer was met when the proved calls were compared with the model, and the most rounds that a network
# needed to be empty.
for tally in $tallies; do
  [ -f "$tally" ] && cat "$tally"
done
# A run that ends before its tests counts as one failure.
awk -v status="$status" '
  /^test result:/ { passed += $4; failed += $6 }
  END {
    if (status != 0 && failed == 0) failed = 1
    printf "rust: %d passed, %d failed\n", passed, failed
    exit failed > 0
  }' "$log"
result=$?
rm -f "$log"
exit $result
