#!/usr/bin/env bash
# Runs every test: the checker's unit tests, the proofs and must-fail edits of each listed crate (rt ci), then the checker's tests against the
# proved code. What rt ci says is shown as it comes, all but its last line, which is its verdict: that is held back until the checker has
# passed too, so that it is the last line here. The exit status is not 0 where anything failed, where a must-fail edit could not be tried
# (rt ci counts it as bad, and passes), or where there is no checker.
set -eu -o pipefail
cd "$(dirname "$0")"
if [ ! -f checker/Cargo.toml ]; then
  echo "checker/ is missing"
  exit 1
fi
(cd checker && cargo test --release --offline --lib)
log=$(mktemp)
trap 'rm -f "$log"' EXIT
passed=yes
rt ci 2>&1 | tee "$log" | sed -u '$d' || passed=no
verdict=$(tail -n 1 "$log")
if [ "$passed" = no ]; then
  echo "$verdict"
  echo "rt ci failed"
  exit 1
fi
case "$verdict" in
  *" passed, 0 failed") ;;
  *) echo "$verdict"; echo "rt ci gave no verdict"; exit 1 ;;
esac
if ! grep -q '^rt: ok' "$log" || grep -Eq '^rt: ok.*, [1-9][0-9]* bad' "$log"; then
  echo "$verdict"
  echo "a must-fail edit is bad, or rt ci does not say that all is well"
  exit 1
fi
bash ./build.sh
(cd checker && cargo test --release --offline --test '*')
echo "$verdict"
