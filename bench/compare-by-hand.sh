#!/usr/bin/env bash
# Holds the simulation written by hand (bench/by_hand) against the stored reports of examples/, and against the second
# model on drawn scripts, plain ones and hostile ones: what a program is measured beside must do the same.
# Usage: bench/compare-by-hand.sh [COUNT] [SEED]. The last line is 'N passed, M failed'.
set -u
cd "$(dirname "$0")/.." || exit 1
PROGRAM=$(bench/by-hand.sh) || exit 1
export PROGRAM
# the simulation by hand reads scripts of versions 1 and 2
export VERSIONS=12
passed=0
failed=0

for script in examples/run/*.json examples/worked/run/*.json; do
  words=()
  if [ -f "${script%.json}.words" ]; then
    read -r -a words < "${script%.json}.words"
  fi
  if "$PROGRAM" run "${words[@]}" < "$script" | cmp -s - "${script%.json}.report"; then
    passed=$((passed + 1))
  else
    echo "$script: another report than the stored one"
    failed=$((failed + 1))
  fi
done

for check in compare-with-model check-hostile-bus; do
  told=$(./scripts/$check "${1:-500}" "${2:-1}")
  echo "$check: $told"
  last=${told##*$'\n'}
  passed=$((passed + ${last%% passed*}))
  last=${last##*, }
  failed=$((failed + ${last%% failed*}))
done
echo "$passed passed, $failed failed"
[ "$failed" -eq 0 ]
