#!/usr/bin/env bash
# Measures calls of the libraries, by the program of crates/bench, which is proved and built first: `wire` and the
# reader (frames), filters and receive FIFOs (filters), transmit mailboxes that threads share (mail), nodes on one bus
# (nodes), segments (segments).
# Usage: bench/calls.sh [WORD..]; without a word all of them.
set -eu
cd "$(dirname "$0")/../crates/bench"
log=$(mktemp)
trap 'rm -f "$log"' EXIT
if ! rt run > "$log" 2>&1; then
  cat "$log"
  exit 1
fi
if [ $# -eq 0 ]; then
  set -- frames filters mail nodes segments
fi
for word in "$@"; do
  ./out/bench "$word"
done
