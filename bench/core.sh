#!/usr/bin/env bash
# Measures `bxgate core` on event lists of 10,000 and of 100,000 events: time (the best of fifteen runs) and
# memory beyond the input, and how many times more the second costs.
set -eu
cd "$(dirname "$0")/.."
program=${PROGRAM:-$(scripts/program)}
work=$(mktemp -d)
trap 'rm -rf "$work"' EXIT

# each five events claim, request, schedule, start and complete one frame of 0 to 8 bytes
events() {
  awk -v count="$1" 'BEGIN {
    printf "{\"routes\":1,\"events\":["
    for (n = 1; 5 * n <= count; n++) {
      data = ""
      for (k = 0; k < n % 9; k++) data = data (k ? "," : "") (n + 37 * k) % 256
      if (n > 1) printf ","
      printf "{\"event\":\"claim\",\"route\":0,\"mailbox\":%d},", n % 3
      printf "{\"event\":\"request\",\"route\":0,\"mailbox\":%d,\"number\":%d,\"frame\":{\"id\":%d,\"ext\":%s,\"data\":[%s]}},", n % 3, n, n % 2048, n % 2 ? "true" : "false", data
      printf "{\"event\":\"schedule\",\"mailbox\":%d},{\"event\":\"start\",\"mailbox\":%d},{\"event\":\"complete\",\"mailbox\":%d}", n % 3, n % 3, n % 3
    }
    printf "]}"
  }'
}

measure() {
  events "$1" > "$work/list"
  best=
  for _ in $(seq 15); do
    start=$(date +%s%N)
    "$program" core < "$work/list" > "$work/report"
    took=$((($(date +%s%N) - start) / 1000))
    if [ -z "$best" ] || [ "$took" -lt "$best" ]; then best=$took; fi
  done
  /usr/bin/time -f '%M' -o "$work/cost" "$program" core < "$work/list" > "$work/report"
  read -r kilobytes < "$work/cost"
  bytes=$(wc -c < "$work/list")
  beyond=$((kilobytes - bytes / 1024))
  echo "$1 events: $best us, $beyond KiB beyond an input of $((bytes / 1024)) KiB, $(grep -c '^done' "$work/report") frames"
}

first=$(measure 10000)
second=$(measure 100000)
echo "$first"
echo "$second"
awk -v a="$first" -v b="$second" 'BEGIN { split(a, x, " "); split(b, y, " "); printf "ten times the events: %.1f times the time, %.1f times the memory\n", y[3] / x[3], y[5] / x[5] }'
