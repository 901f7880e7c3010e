#!/usr/bin/env bash
# Measures the built program on inputs at the limits of scripts and event lists: the best time of three runs by the clock,
# and the most memory that one of them took. INPUTS names the script in bench/ that writes the inputs (limits.py).
set -eu
cd "$(dirname "$0")/.."
program=${PROGRAM:-$(scripts/program)}
work=$(mktemp -d)
trap 'rm -rf "$work"' EXIT

python3 "bench/${INPUTS:-limits.py}" "$work" > "$work/inputs"
while IFS=$'\t' read -r number word name; do
  for _ in 1 2 3; do
    status=0
    /usr/bin/env time -f '%e %M' -o "$work/time" "$program" "$word" < "$work/$number.json" > "$work/report" 2> "$work/faults" || status=$?
    tail -n 1 "$work/time"
  done | sort -n > "$work/times"
  most=$(cut -d ' ' -f 2 "$work/times" | sort -n | tail -n 1)
  echo "$name: $(head -n 1 "$work/times" | cut -d ' ' -f 1) s, $((most / 1000)) MB, report of $(stat -c %s "$work/report") bytes$(head -c 80 "$work/faults")"
done < "$work/inputs"
